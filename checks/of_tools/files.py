"""What the tools share: names on a terminal, the program that they find, long scripts and words, many replies."""

import io
import itertools
import os
import pty
import subprocess
import unittest.mock

import vcd_files
import vcd_runs
from common import TOP, measured, run, same, store, store_program

# A line, and what it is at 10 us.
LINES = {
    "shift a -1.5ms": "shift a -150", "cut 1us +2s": "cut 1us +200000", "force 1ms 20us 1ms 1s": "force 1ms 2 100 1s",
    "uart 1us 86.8us 8 none 1": "uart 1us 217/25 8 none 1", "uart a 9600baud": "uart a 125/12", "list 1s": "list 1s",
    "deglitch a 100baud": "deglitch a 100baud", "value a": "value a", "uart a 0baud 8": "uart a 0baud 8",
}
# A program that has many replies to a line, and tools with the words before that line.
MANY = """#!/bin/sh
for word; do [ "$before" != -o ] || cp c "$word"; before=$word; done
list='timescale 1 ns\\nend 9999999\\nsignals 1\\nskipped 0\\n@0 1 wire r\\n'
printf "$list"; seq -f '%.0f-9999999 uart byte 0x41' "$REPLIES"; printf "$list$list"
"""
MANY_SHOWN = ["table c", "table c --csv", "table c --json", "view c -o v.vcd", "apply c --json --line"]


def on_a_terminal():
    """Names can't do there what escape sequences do; elsewhere they are the bytes of the file, in each locale."""
    name = b"\x1b[2K\xc2\x9b1A\xe2\x82\xac\xff"
    store("a", text=b"$var wire 1 ! %s $end $enddefinitions $end #0 0! #5" % name)
    store("script", text="list\n")
    tools = ["vcdedit-apply", "script", "a"], ["vcdedit-table", b"--" + name]
    for locale, (tool, *words) in itertools.product(("C.UTF-8", "C"), tools):
        words = [os.path.join(TOP, "tools", tool), *words]
        how = {"env": {**os.environ, "PYTHONUTF8": "0", "PYTHONCOERCECLOCALE": "0", "LC_ALL": locale}}
        yield "names in a file, " + locale, name in b"".join(run(words, text=False, **how)[1:])
        terminal, side = pty.openpty()
        subprocess.run(words, stdout=side, stderr=side, **how)
        found = os.read(terminal, 10000)
        yield "names on a terminal: %s" % found, rb"\x1b[2K\xc2\x9b1A" in found and b"\x1b" not in found


def not_built():
    """A tree without a program that is built, and with one."""
    launcher, argv = store_program(os.getcwd(), "tree/vcdedit", text=""), [os.path.abspath("tree/tools/some")]
    with unittest.mock.patch("sys.argv", argv), unittest.mock.patch.dict(os.environ, VCDEDIT=""):
        for name, wanted in (("crates/none", None), ("crates/vcdedit/out/vcdedit", launcher)):
            store("tree", name, text="")
            try:
                found = vcd_files.program()
            except vcd_files.Trouble:
                found = None
            yield same("a tree with " + name, found, wanted)


def long_ones():
    """Scripts of nearly a MiB, and a word that is longer than many reads."""
    path = store("c", text="$var wire 1 ! r $end $enddefinitions $end #0 0! #3 1! #5")
    for line, count, said in (
        (b"invert r".ljust(1047), 1000, [b"ok"]), (b"changes r".ljust(1042), 1000, [b"0 0", b"3 1"]),
        (b"uart r 2 8 none 1".ljust(27), 3100, []),
    ):
        with open(path, "rb") as source, vcd_runs.Run(source, [line] * count) as one:
            one.listing()
            found = list(one.replies())
        yield "many long lines %s" % line, found == [(place, reply) for place in range(count) for reply in said]
    reads = unittest.mock.Mock(wraps=io.BytesIO(b"x" * (200 * vcd_files.CHUNK) + b" y"))
    found = list(map(len, vcd_files.words_of(reads))), reads.read.call_count < 20
    yield same("a long word, in few reads", found, ([200 * vcd_files.CHUNK, 1], True))


def many_replies():
    """What the tools hold does not grow with the replies."""
    store("c", text="$var wire 1 ! r $end $enddefinitions $end #0 0! #9999999")
    program = store_program(os.getcwd(), "many", text=MANY)
    for tool, *words in map(str.split, MANY_SHOWN):
        words, found = [os.path.join(TOP, "tools/vcdedit-" + tool), *words, "uart r 2 8 none 1"], []
        for count in ("1000", "20000"):
            with unittest.mock.patch.dict(os.environ, VCDEDIT_AMEND=program, REPLIES=count):
                found.append(measured(words))
        (_, few), (status, many) = found
        yield "%s: %s" % (words, found), status == 0 and many - few < 2000000


def check():
    for part in on_a_terminal, not_built, long_ones, many_replies:
        yield from part()
    for scale, lines in (("$timescale 1 s $end $timescale 1\n0 us $end", LINES), ("", {line: line for line in LINES})):
        with open(store("c", text="$comment $timescale 1 s $end %s $enddefinitions $end" % scale), "rb") as file:
            found = vcd_files.lines_in_ticks([line.encode() for line in lines], file)
        yield same("lines in ticks", found, [line.encode() for line in lines.values()])
