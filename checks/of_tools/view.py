"""What is decoded, as it is shown: the rows, remarks, the written file, what GTKWave is to show, viewers."""

import contextlib
import os
import re
import signal
import sys
import unittest.mock

from common import EXAMPLES, TOP, load, load_if_there, module_of, run, same, store, store_program

TOOL = os.path.join(TOP, "tools/vcdedit-view")
I2C, I2C_LINE = os.path.join(EXAMPLES, "i2c/capture.vcd"), "i2c bench.scl bench.sda"
GLITCHES, UART_LINE = os.path.join(EXAMPLES, "glitches/capture.vcd"), "uart bench.rx 10 8 none 1"
NO_ROW = "line %d: uart: no row: a later line edits what it decodes (see --before)"
ODD, DIFFER = "GTKWave may not show: %s", "output: variables of one code that differ from now on: %s"


def text(names, changes):
    """A capture of one bit a signal."""
    declared = "".join("$var wire 1 %s %s $end\n" % one for one in zip("!\"#$%", names.split(" ")))
    return "%s$enddefinitions $end\n#0 %s\n" % (declared, changes.replace(" ", "\n"))


# A capture and lines; what is told; the rows: tick and text of each change.
BYTE, LINE = text("r", "0! #20 1! #34 0! #36 1! #38 0! #50"), "uart r 2 8 none 1"
ROWS = {
    "frames that touch, the last up to the end": (
        text("r", "1! #20 0! #38 1! #40 0! #58 1! #59"), [LINE], [], {"uart": "0 -|20 byte_0x00|40 byte_0x00"}),
    "frames of one tick, the last at the end": (
        text("c d", '0! 1" #3 1! #5 0! #6 1!'), ["spi c d - - 0 1 msb"], [],
        {"spi": "0 -|3 word_mosi_0x1|4 -|6 word_mosi_0x1"}),
    "a decoder among edits": (BYTE, ["invert r", LINE, "undo"], [NO_ROW % 2], {}),
    "a decoder among edits that come to nothing": (
        BYTE, ["invert r", LINE, "invert r", "undo"], [], {"uart": "0 -|20 byte_0x40|40 -"}),
    "a decoder of one of two variables of a code": (
        "$var wire 1 ! a $end\n" + BYTE, ["invert r", LINE], [DIFFER % "a, r"], {"uart": "0 -|20 byte_0x40|40 -"}),
    "a decoder before an edit of another line": (
        text("r c", '1! 0" #20 0! #34 1! #36 0! #38 1! #50'), [LINE, "invert c", "uart @0 2 8 none 1"], [],
        {"uart": "0 -|20 byte_0x40|40 -", "uart_2": "0 -|20 byte_0x40|40 -"}),
    "a decoder of a signal that gets another place": (
        text("r c", '1! 1" #20 0! 0" #34 1! 1" #36 0! 0" #38 1! 1" #50'), ["uart @1 2 8 none 1", "remove r"],
        [NO_ROW % 1], {}),
    "a bus, in a capture of a simulator": (load(I2C).decode(), [I2C_LINE], [], {
        "i2c": "0 -|22 address_0x50_write|93 -|112 data_0x2a|183 -|212 address_0x50_read|283 -|302 data_0xc5|373 -",
        "i2c_conditions": "0 -|15 start|102 ack|192 ack|205 repeated-start|292 ack|382 nack|395 stop"}),
    "what looks like stamps": (
        BYTE.replace("$enddef", "$var real 64 #30 v $end $enddef").replace(
            "#34", "r2.5 #30 $comment #50 $end r1 #30 #34"), ["invert r", LINE], [], {"uart": "0 -|20 byte_0x40|40 -"}),
    "one of two signals of a name": (
        text("r r", '1! 1" #20 0" #34 1" #36 0" #38 1" #50'), ["uart @1 2 8 none 1"],
        ["GTKWave may show another signal of the name: r"], {"uart": "0 -|20 byte_0x40|40 -"}),
    "taken names": (text("decoded.i2c decoded.i2c_3", '1! 1" #9'), ["i2c @0 @1", "i2c @1 @0"],
                    [ODD % "decoded.i2c, decoded.i2c_3"], {"i2c_2": "0 -", "i2c_4": "0 -"}),
    "names that GTKWave may not show": (
        "$scope module s:1 $end $scope module [s] $end\n" + text("a:b #h v*w -n a[3]", "1!"), [],
        [ODD % "[s], a:b, #h, v*w, -n"], {}),
}
# Declarations, and the names that GTKWave 3.3 has for them.
NAMES = {
    "wire 1 ! q [3]": "q[3]", "wire 1 ! r q s": "rqs", "wire 1 ! u [2:2]": "u[2]", "wire 1 ! t[5]": "t[5]",
    "wire 4 ! w": "w[3:0]", "reg 4 ! v [4:1]": "v[4:1]", "reg 4 ! a [2] [3:0]": "a[2][3:0]",
    "integer 32 ! i [31:0]": "i", "reg 8 ! s [3:-4]": "s[3:-4]", "reg 4 ! m [-1:-4]": "m[3:0]",
    "wire 1 ! n[-1:-1]": "n",
}
# Lines on the capture of a UART with another signal, and what GTKWave is to show: without --before, and with it.
BEFORE = {
    (UART_LINE, "deglitch bench.rx 3", UART_LINE): ("rx uart", "before.rx uart rx uart_2"),
    ("depth 5", UART_LINE): ("rx uart", "before.rx uart rx"),
    ("deglitch bench.rx 3", UART_LINE): ("rx uart", "before.rx rx uart"),
    ("derive n not bench.rx", "uart bench.n 10 8 none 1"): ("n uart rx", "before.rx n uart rx"),
    ("derive n not bench.rx",): ("rx n", "before.rx rx n"),
    ("rename @0 tx",): ("tx", "before.rx tx"),
    ("remove @0", "invert @0"): ("y", "before.rx y"),
    (): ("rx y", "before.rx before.y rx y"),
}
# Codes and values that look like others.
WORDS = """$var wire 1 ! a $end $var wire 4 #3 q $end $var wire 4 b1 r $end $var wire 4 0x s $end $var real 64 $r v $end
$var string 1 ss w $end $var wire 1 $a c $end $enddefinitions $end $dumpvars 0! b1 #3 b10 b1 bx 0x r1.5 $r sHi ss 0$a $end
#1 1! b101\t#3 $comment #2 0! b1 #3 $end b11 b1 b1 0x\r\n#2 0! x$a $dumpoff x! $end #4 r2 $r 1! b110
#3 #7 -! sB ss sC\tss\n#9"""
# Options, and the ticks in 200 points and the size of what GTKWave is to show of a line with one row.
WINDOWS = [([], 62, (1000, 186)), (["--size", "1600"], 36, (1600, 186)), (["--size", "800x300"], 81, (800, 300))]
# Words, and the status and a part of what is told. Nothing is written then.
TWICE = " would be written, and is another file of this command"
REFUSED = [
    ([I2C, "-o", "new.vcd", "frob", "list"], 1, "vcdedit-view: %s: line 1: frob: UnknownCommand" % I2C),
    ([I2C, "-o", "pipe.vcd"], 4, "vcdedit-view: pipe.gtkw: is no regular file, or is w"),
    ([I2C, "--picture", "to_pipe.png"], 4, "vcdedit-view: to_pipe.png: is no regular file, or"),
    ([I2C, "-o", "fixed.vcd"], 4, "vcdedit-view: fixed.vcd: is no regular file, or is w"),
    (["c.vcd", "-o", "linked.vcd"], 2, "linked.vcd" + TWICE), (["-", "-o", "c.vcd"], 2, "c.vcd" + TWICE),
    ([I2C, "--script", "s.vcd", "-o", "./s.vcd"], 2, "./s.vcd" + TWICE),
    (["c.vcd", "-o", "k.vcd", "--picture", "p.png"], 2, "k.gtkw" + TWICE),
    ([I2C, "--size", "50"], 2, "--size is a width"), ([I2C, "-o", "none/v.vcd"], 2, "there is no such folder"),
    ([I2C, "--picture", "p.jpg"], 2, "--picture: p.jpg is no name that ends in .png"),
    ([I2C, "-o", ".vcd"], 2, "-o: .vcd is no name that ends in .vcd"),
    ([I2C], 4, "there is no gtkwave and no surfer: apt-get install gtkwave, or say in VCDEDIT_VIEWER"),
    ([I2C, "--picture", "p.png"], 4, "needs GTKWave and a virtual screen: apt-get install gtkwave xvfb xauth\n"),
]


def view(*words, stdin=None, before=(), **more):
    """A run of the tool, with no viewer on the path."""
    place = dict.fromkeys(["TMPDIR", "PATH"], os.path.abspath("tmp"))
    environment = {**os.environ, "VCDEDIT_VIEWER": "", **place, **more}
    return run([*before, sys.executable, TOOL, *words], stdin=stdin, env=environment)


def rows_in(path):
    """The rows of a written file, as in ROWS."""
    head, _, changes = load(path).decode().partition("$enddefinitions $end\n")
    rows = {code: (name, []) for code, name in re.findall(r"\$var string [01] (\S+) (\S+) \$end", head)}
    for tick, value, code in re.findall(r"^(?:#(\d+)|s(\S*) (\S+))$", changes, flags=re.M):
        stamp = tick or stamp
        if code:
            rows[code][1].append("%s %s" % (stamp, value or "-"))
    return {name: "|".join(changes) for name, changes in rows.values()}


def rows():
    """Rows. vcdedit reads the written file again, and finds the capture after the lines."""
    for name, (capture, lines, told, wanted) in ROWS.items():
        store("c.vcd", text=capture)
        store("script", text="\n".join(lines))
        status, _, errors = view("c.vcd", "-o", "v.vcd", "--script", "script")
        told = "".join("vcdedit-view: %s\n" % line for line in told)
        yield same(name, (status, rows_in("v.vcd"), errors), (0, wanted, told))
        run([os.environ["VCDEDIT"], "-i", "c.vcd", "--script", "script", "-o", "w.vcd"])
        again = run([os.environ["VCDEDIT"], "-i", "v.vcd", "--script", "/dev/null", "-o", "/dev/stdout"])[1]
        comment, _, rest = again.partition("\n")
        shown = all("decoded.%s by line" % row in comment for row in wanted)
        yield "%s: its comment: %s" % (name, comment), "vcdedit-view: no evidence" in comment and shown
        yield same(name + ": the signals", rest, load("w.vcd").decode())


def shown_names():
    """What GTKWave is to show of the written file."""
    return re.findall(r"^@\d+\n(?:\+\{.*\} )?(.*)$", load("v.gtkw").decode(), flags=re.M)


def settings():
    declared = "".join("$var %s $end\n" % one.replace(" ! ", " c%d " % place) for place, one in enumerate(NAMES))
    declared += "$var real 64 # v $end $upscope $end $enddefinitions $end #0 r2.5 # #9"
    store("c.vcd", text="$scope module my top $end\n%s\n" % declared)
    found = view("c.vcd", "-o", "v.vcd")
    yield same("what is told", found, (0, "", ""))
    yield same("names", shown_names(), ["mytop." + name for name in [*NAMES.values(), "v"]])
    written = load("v.vcd").decode()
    for name in ("module mytop", "rqs", "q [3]", "a[2] [3:0]"):
        yield "a name of one word: " + name, " %s $end\n" % name in written
    another = '$scope module bench $end $var wire 1 " y $end $upscope $end $enddefinitions'
    store("c.vcd", text=load(GLITCHES).decode().replace("$enddefinitions", another))
    for lines, both in BEFORE.items():
        for words, wanted in zip(([], ["--before"]), both):
            view("c.vcd", *words, "-o", "v.vcd", *lines)
            found = " ".join(shown_names()).replace("bench.", "").replace("decoded.", "")
            yield same("%s %s" % (words, lines), found, wanted)
    declared = '$timescale 1 s $end $var reg 2 ! r $end $var wire 1 " q $end $enddefinitions $end'
    store("c.vcd", text=declared + ' #0 b10 ! 1" #9\n')
    view("c.vcd", "-o", "v.vcd", "--before", "invert r", "rename r before.q")
    items = re.findall(r"^\$(?:timescale|scope .* |upscope|dumpvars)", load("v.vcd").decode(), flags=re.M)
    yield same("a free scope", items, ["$timescale", "$scope module before_2 ", "$upscope"])
    store("script", text="value before_2.r 9\nvalue before.q 9\nvalue before_2.q 9\n")
    values = run([os.environ["VCDEDIT"], "-i", "v.vcd", "--script", "script"])
    yield same("the capture before", values[1], "10\n01\n1\n")
    store("c.vcd", text=WORDS)
    view("c.vcd", "-o", "v.vcd", "--before", "invert a", "invert q", "cut 5 6")
    found = ["".join("changes %s%s\n" % (scope, name) for name in "aqrsc") for scope in ("", "before.")]
    found = [run([os.environ["VCDEDIT"], "-i", path, "--script", store("script", text=text)])[:2]
             for path, text in zip(("c.vcd", "v.vcd"), found)]
    yield same("words of all kinds before", found[1], found[0])
    view(I2C, "-o", "v.vcd", "--from", "204", "--to=400us", "--keep", "bench.*", I2C_LINE)
    yield same("a part", rows_in("v.vcd"), {"i2c": "0 -|8 address_0x50_read|79 -|98 data_0xc5|169 -",
                                            "i2c_conditions": "0 -|1 start|88 ack|178 nack|191 stop"})
    for words, scale, size in WINDOWS:
        view(GLITCHES, "-o", "v.vcd", UART_LINE, *words)
        saved = load("v.gtkw").decode()
        zoom = float(re.search(r"^\*(\S+)", saved, flags=re.M).group(1))
        yield "the window of %s: %s" % (words, saved), "[size] %d %d\n" % size in saved and int(2**-zoom) == scale
    os.chmod(store("old.vcd", text="old" * 999), 0o600)
    view(GLITCHES, "-o", "old.vcd")
    found = oct(os.stat("old.vcd").st_mode), load("old.vcd") == load("old.vcd").replace(b"old", b"")
    yield same("a file that was there", found, ("0o100600", True))
    before, files = load("old.vcd"), os.listdir()
    with unittest.mock.patch("os.sendfile", side_effect=KeyboardInterrupt), contextlib.suppress(KeyboardInterrupt):
        module_of("tools/vcdedit-view").put_at("old.vcd", "v.vcd")
    yield same("an interruption", (load("old.vcd") == before, os.listdir()), (True, files))


def programs():
    """A full standard output, and a capture that changes while it is read."""
    found = view(I2C, "-o", "v.vcd", I2C_LINE, before=["/bin/sh", "-c", 'exec "$@" > /dev/full', "sh"])
    told = "vcdedit-view: standard output or TMPDIR: No space left on device\n"
    yield same("a full standard output", found, (4, "", told))
    store("c.vcd", text=BYTE)
    writes = '#!/bin/sh\n%s "$@"; status=$?\necho "#59" >> c.vcd\nexit $status\n' % os.environ["VCDEDIT_AMEND"]
    found = view("c.vcd", "-o", "w.vcd", VCDEDIT_AMEND=store_program("./writes", text=writes))
    told = "vcdedit-view: c.vcd: another program writes it: run again when that has ended\n"
    yield same("a capture that changes", found, (4, "", told))


def refusals():
    os.link(store("c.vcd", text=text("r", "1!")), "linked.vcd")
    for name in ("p.png", "s.vcd", "fixed.vcd"):
        store(name, text="")
    os.chmod("fixed.vcd", 0o444)
    os.mkfifo("pipe.gtkw")
    for name, target in (("k.gtkw", "p.png"), ("to_pipe.png", "pipe.gtkw")):
        os.symlink(target, name)
    for words, status, told in REFUSED:
        before = os.listdir()
        with open("c.vcd") as given:
            found = view(*words, stdin=given)
        written = set(os.listdir()).difference(before)
        right = found[0] == status and told in found[2] and "Traceback" not in found[2] and not written
        yield "%s: %s, %s" % (words, found, written), right


def viewers():
    """What is started, with a program in the place of each. They are given what is shown; it is gone when they end."""
    tools, saw = os.path.abspath("tools"), '#!/bin/sh\necho "$0 $*" > ${0%/*}/saw; /bin/cat *.vcd > ${0%/*}/seen\n'
    for tool, words in (("surfer", "capture.vcd"), ("gtkwave", "capture.vcd capture.gtkw"), ("other", "capture.vcd")):
        path = store_program(tools, tool, text=saw)
        view(I2C, I2C_LINE, **({"VCDEDIT_VIEWER": path} if tool == "other" else {"PATH": tools}))
        found = load("tools/saw").decode(), "i2c_conditions" in rows_in("tools/seen")
        yield same(tool, found, ("%s %s\n" % (path, words), True))
    store_program(tools, "gtkwave", text="#!/bin/sh\nexit 3\n")
    told = "vcdedit-view: %s/gtkwave ended with status 3; -o and --picture need no screen\n" % tools
    yield same("a viewer that fails", view(I2C, PATH=tools), (4, "", told))
    store_program(tools, "gtkwave", text="#!/bin/sh\n/bin/sleep 0.5\nkill -TERM $PPID\nexec /bin/sleep 20\n")
    yield "a signal ends it", view(I2C, PATH=tools)[0] == 128 + signal.SIGTERM
    store_program(tools, "xauth", text="")
    store_program(tools, "xvfb-run", text="#!/bin/sh\necho none\n")
    found = view(I2C, "--picture", "p.png", PATH=tools)
    yield same("no picture", found, (4, "", "vcdedit-view: GTKWave made no picture: none\n"))
    store_program(tools, "xvfb-run", text="#!/bin/sh\n/bin/cat *.gtkw show.tcl rc > picture.png\n")
    view(I2C, I2C_LINE, "--picture", "p.png", PATH=tools)
    yield "a picture", b"decoded.i2c" in load_if_there("p.png", default=b"")
    yield "nothing is left", not os.listdir("tmp")


def check():
    os.mkdir("tmp")
    for part in (refusals, viewers, rows, settings, programs):
        yield from part()
