"""Carrying a script out in place: what is written, what stays, and what is told.

A program of our own stands for vcdedit-amend where a run has to fail, to last or to be killed.
"""

import gzip
import hashlib
import os
import re
import shlex
import signal
import unittest.mock

import vcd_runs
import vcd_traces
from common import IS_UNPROVED, TOP, load, module_of, paths_below, run, same, store, store_program, toggling
from vcd_files import VERSION

APPLY = os.path.join(TOP, "tools/vcdedit-apply")
LINE = """$timescale 1 us $end $scope module tb $end
$var wire 1 ! rx $end $var wire 4 " q [3:0] $end $var real 64 # volts $end
$upscope $end $enddefinitions $end
#0 1! b0 " r1.5 # $comment seen $end #5 0! #6 1! #20 b101 " #30
"""
AS_LINE = ", end 30, timescale 1 us"
SCRIPT, DONE, MODE = "rename tb.rx tx\n", LINE.replace(" rx ", " tx "), 0o640
PART = "$timescale 1 us $end $scope module tb $end\n$var wire 1 ! tx $end\n$upscope $end $comment vcdedit-amend: "
PART += "ticks 5 to 25 variables 1 of 3 $end\n$enddefinitions $end $comment seen $end\n#0\n0! #1 1!\n#20\n"
MARK = "$comment vcdedit-amend %s\nread A %d bytes SHA-256 %s\nedit %s$end\n"
MARK %= VERSION, len(LINE), hashlib.sha256(LINE.encode()).hexdigest(), SCRIPT
ODD, NO_TEXT = "\N{EURO SIGN} odd\n-name", os.fsdecode(b"\xff")
FILES = {
    **dict.fromkeys(["A", "B", "B.orig", "fixed", "kept/A", "sub/p", ODD, NO_TEXT], LINE),
    "inuse/p": LINE, "inuse/.p.vcdedit": "of another", "late": LINE.replace("1 us", "1 ns").replace("#30", "#40"),
    "packed": gzip.compress(LINE.encode()), "faulty": "#0\n", "torn": LINE + "#9\n",
    "some": "value tb.rx 5\nundo\n" + SCRIPT, "timed": "shift tb.rx 0.003ms\n",
    "wild": "value %s 3\nvalue x\0y 3\n" % ("x" * 2**17), "asks": "# a comment\n\n  changes tb.rx \nvalue tb.rx 5\n",
}
LINKS = {"link": "sub/p", "lost": "nowhere", "kept/B": "../B", "A.old": "A", "to_orig": "B.orig"}
JSON = '{"capture": "%s", "replies": [{"line": 2, "refused": "UnknownCommand"}], "remarks": [], "end": 30, "timescale": '
JSON += '"1 us", "status": 1, "written": true, "said": "written: 1 ok, 1 line refused"}%s'
BOTH, BOTH_WRITTEN = {"A": DONE, "B": DONE}, ["A: written: 1 ok", "B: written: 1 ok", "2 written, 0 not, status 0"]
GLOB = ["B: as it was: FOLDER/B.orig is there already", "faulty: as it was: line 1: #0: UnexpectedWord",
        "to_orig: as it was: is a backup: its name ends in .orig"]
WRITER = "another program writes it: run again when that has ended"
# Words, the status, what is shown, the texts of all files that change or come, and parts of what is told besides.
RUNS = [
    ("script --backup .old -- link", 0, ["link: written: 1 ok"], {"sub/p": DONE, "sub/p.old": LINE}),
    ("script --into new/in A A.old --jobs 2", 0, ["2 written, 0 not, status 0", "A.old: written to new/in/A.old: 1 ok",
     "A: written to new/in/A: 1 ok"], {"new/in/A": DONE, "new/in/A.old": DONE}),
    ("script A B late --dry-run", 0, ["A: would be written: 1 ok", "B: would be written: 1 ok",
     "late: would be written: 1 ok, end 40, timescale 1 ns", "3 would be written, 0 not, status 0"], {},
     "vcdedit-apply: the captures have different timescales\n    1 us: A, B\n    1 ns: late\n",
     "vcdedit-apply: the captures have different last ticks\n    30: A, B\n    40: late\n"),
    ("script A --into new --keep tb.* --remove *.q* --remove *volts --from 5us --to 25us", 0,
     ["A: written to new/A: 1 ok, end 20, timescale 1 us"], {"new/A": PART}, ": output: comments and other commands"),
    ("asks A --into new --keep tb.r", 1,
     ["A: not written: UnmetPattern: a pattern matches no variable's full name"], {},
     "\n    no variable's full name is tb.r\n      near: tb.rx\n"),
    ("script A --into A/x --dry-run", 4, ["A: not written: FOLDER/A is no folder in which files may be made"], {}),
    ("script " + shlex.quote("./" + ODD), 0, ["./\N{EURO SIGN} odd\\x0a-name: written: 1 ok"], {ODD: DONE}),
    ("some A", 1, ["A:1: 0", "A: as it was: 1 line refused"], {}, "A: some line 2: undo: NothingToUndo\n"),
    ("timed A --dry-run", 0, ["A: would be written: 1 ok"], {}, "A: timed line 1: carried out as: shift tb.rx 3\n"),
    ("timed A --dry-run -q", 0, ["A: would be written: 1 ok"], {}),
    ("wild A", 1, ["A: as it was: 2 lines refused"], {}, "A: wild line 1: value xx",
     r"line 2: value x\x00y 3: NoSuchName"),
    # A glob is named again: no capture is edited twice, and no backup.
    ("script A B faulty to_orig --backup .orig --dry-run", 4,
     ["A: would be written: 1 ok", *GLOB, "1 would be written, 3 not, status 4"], {}, "faulty: "),
    ("script A B faulty to_orig --backup .orig", 4, ["A: written: 1 ok", *GLOB, "1 written, 3 not, status 4"],
     {"A": DONE, "A.orig": LINE}, "faulty: line 1: #0: UnexpectedWord\n"),
    ("script A --backup /b", 4, ["A: as it was: FOLDER/A/b: Not a directory"], {}),
    # What is only asked, and what is refused in a dry run, too.
    ("asks fixed", 0, ["fixed:3: 0 1", "fixed:3: 5 0", "fixed:3: 6 1", "fixed:4: 0",
     "fixed: as it was: no line of the script edits"], {}),
    ("--script - --line 'value tb.tx 5us' A < script", 0, ["A:2: 0", "A: written: 1 ok"], {"A": DONE},
     "A: - line 2: carried out as: value tb.tx 5\n"),
    ("--line 'rename tb.rx tx' --line frob A B --keep-going --json", 1, [
        "[", *(JSON % (name, end) for name, end in (("A", ","), ("B", ""))), "]"], BOTH,
     "A: line 2: frob: UnknownCommand\n", "B: line 2: frob: UnknownCommand\n"),
    ("script A --mark", 0, ["A: written: 1 ok"], {"A": DONE.replace("$enddefinitions", MARK + "$enddefinitions")}),
    ("script A --mark --dry-run", 0, ["A: would be written: 1 ok"], {}),
    ("script inuse/p", 4, ["inuse/p: as it was: OutputInUse: another run writes the output; if none does, remove "
     ".NAME.vcdedit"], {}, "inuse/.p.vcdedit: is there already\n"),
    # What is refused as a whole.
    ("script packed", 3, ["packed: as it was: the file is packed by gzip: gzip -dc FILE > NEW.vcd"], {}),
    ("script torn", 3, ["torn: as it was: line 5: #9: TimeBackwards"], {}, "cut off"),
    ("none A", 4, [], {}, "none: No such file"), ("sub A", 4, [], {}, "sub: Is a directory"),
    *(("script A --%s ''" % word, 2, [], {}, "--into and --backup want a word") for word in ("into", "backup")),
    ("script A --to 9", 2, [], {}, "name it by --into"), ("script A --jobs 0", 2, [], {}, "--jobs is 1 or more"),
    *((words, 2, [], {}, "there is no CAPTURE") for words in ("", "script", "--line undo")),
    ("script A ./A", 2, [], {}, "two captures would be one file: A and ./A"),
    ("script A kept/A --into sub", 2, [], {}, "two captures would be one file: A and kept/A"),
    # A program that has the capture open does not write it.
    ("script A 7<A", 0, ["A: written: 1 ok"], {"A": DONE}),
    # A standard stream is closed or full: each line comes on the other, or not at all.
    ("script A B >&-", 4, [], {}, "standard output: Bad file descriptor"),
    ("script A B >/dev/full", 4, [], BOTH, *("%s: written: 1 ok%s\n" % (name, AS_LINE) for name in "AB")),
    ("some A --keep-going 2>/dev/full", 1, ["A:1: 0", "A: written: 1 ok, 1 line refused"], {"A": DONE}),
    ("script A B <&-", 0, BOTH_WRITTEN, BOTH),
    ("--help >/dev/full", 4, [], {}, "No space left on device\n"),
]
# Words of runs that change nothing, dry or not, and what is shown.
STAYS = {
    "lost": "as it was: No such file or directory",
    "pipe": "as it was: is no regular file",
    "fixed": "as it was: OutputProtected: the output is write-protected",
    "A --into kept": "not written: OutputProtected: the output is write-protected",
    "B --into kept": "not written: FOLDER/kept/B is the capture, or no regular file",
    "sub/p --into kept": "not written: FOLDER/kept/p is the capture, or no regular file",
    "A --into .": "not written: FOLDER/A is the capture, or no regular file",
    "A.old --backup .old": "as it was: is a backup: its name ends in .old",
    "A 7<>A": "as it was: " + WRITER,
    NO_TEXT: "as it was: its path is no UTF-8 text, which vcdedit-amend wants",
}
# A line that is refused, and what is told of it.
REFUSED = [
    ("value tb.q 3", "value tb.q 3: NoSuchName\n", "tb.q: near names are tb.q[3:0]"),
    ("remove tb.rx\ninvert tb.rx", "line 2: invert tb.rx", "renamed or removed by a line above"),
    ("value TB.RX 3", "near names are tb.rx\n"), ("value top.Q[1] 3", "near names are tb.q[3:0]\n"),
    ("invert @7", "the capture has 2 signals"),
    ("Invert tb.rx", "is invert meant?"), ("value tb.rx", "usage: value NAME TICK"),
    ("derive both and tb.rx", "usage: derive WORD not A"),
    ("\N{BYTE ORDER MARK}invert tb.rx", r"line 1: \xef\xbb\xbfinvert tb.rx: UnknownCommand"),
    ("cut 60 200", "200: BadRange", "TO is past the end"),
]
# A capture with copies of a key, its name in comments and in a scope, and a string of another signal.
GIVEN = """$comment the key is 0x2a $end
$scope module tb $end $var reg 8 ! key [7:0] $end $var reg 1 # rx $end $var wire 1 ( flag $end
$scope module u $end $var wire 8 " key [7:0] $end $var wire 8 $ other [7:0] $end $var wire 1 ) flag $end
$scope module key $end $upscope $end $upscope $end $upscope $end $enddefinitions $end
$comment vcdedit-amend 1.0.0
edit deglitch tb.key[7:0] 20
$end
#0 b0 ! b0 " 0# 0( 0) b0 $ #5 b10 " b10 ! b10 $ #6 1# sHello # 1( 1) #7 b11 ! b11 " b1 $ r2.5 # $comment rx $end
#9 b1 ! b1 " b1 $ #20
"""
STAYS_OF = "removed, but another variable with the same changes stays: "
NAMED = "removed, but the name stays: tb.key[7:0]: "
MARKED, COPY = NAMED + "edit deglitch tb.key[7:0] 20", STAYS_OF + "tb.key[7:0]: tb.u.key[7:0]"
BOTH_KEYS = "removed, but the name stays: tb.key[7:0], tb.u.key[7:0]: "
# Words, and what is remarked of what the new capture still shows.
SHOWN = [
    ("--line 'remove tb.key[7:0]'", [COPY, MARKED]), ("--remove 'tb.key*' --from 6", [COPY, MARKED]),
    ("--remove 'tb.key*' --to 6", [MARKED]), ("--remove 'tb.key*' --from 8", [MARKED]),
    ("--line 'remove tb.flag' --line 'remove tb.u.other[7:0]'", []), ("--line 'rename tb.key[7:0] k'", []),
    ("--line 'rename @3 k' --line 'remove @0'",
     [COPY.replace("u.key", "u.k"), NAMED + "$comment the key is 0x2a $end", NAMED + "$scope module key $end", MARKED]),
    ("--line 'remove @3' --line 'remove @0'",
     [BOTH_KEYS + line for line in ("$comment the key is 0x2a $end", "$scope module key $end", MARKED[len(NAMED) :])]),
    ("--line 'force @1 0 21 1'", ["forced, but 2 real or string changes stay: tb.rx"]),
    ("--line 'force tb.rx 0 20 1' --line 'remove tb.rx' -q", []), ("--line 'force tb.rx 0 20 1'", []),
    ("--line 'remove tb.rx'", ["removed, but the name stays: tb.rx: $comment rx $end"]),
]
# Where a capture and the words are like a pattern, this does something first.
STAND_IN = """#!/bin/sh
case "$(readlink /proc/$$/fd/0) $*" in %s) %s ;; esac
exec %s "$@"
"""
ASKS, WRITES, ANY = "*'/B '*", "*'/B '*-o*", "*"
# What a run on B does, the status, what is shown of it, and what is told besides.
FAILING = [
    (WRITES, "echo 'vcdedit-amend: output: write fault' >&2; exit 4", 4, "output: write fault"),
    (WRITES, "echo 'vcdedit-amend: out of memory' >&2; exit 5", 5, "out of memory", "B: out of memory\n"),
    (WRITES, "echo 'x: failed to map segment from shared object' >&2; exit 127", 5, "out of memory"),
    (WRITES, "kill -XFSZ $$", 4, "the new capture is larger than a file may be (ulimit -f)"),
    (WRITES, "kill -9 $$", 5, "the run was ended by signal 9; without memory the system does that"),
    (WRITES, "cp --remove-destination script B; kill -TERM $$", 143, "interrupted"),
    (ASKS, r"printf 'vcdedit-amend: %s\n' 'B: no reason' 'capture: read fault' >&2; exit 4", 4, "capture: read fault",
     "B: capture: read fault\n    B: no reason\n"),
    (ASKS, "exit 0", 4, "FOLDER.amend is no vcdedit"),
    (ASKS, "touch B", 4, WRITER), (ASKS, "exec 5>> B; sleep 3 > /dev/null 2> /dev/null < /dev/null &", 4, WRITER),
]


class Folder:
    """A folder with files, and runs of the tool in it. In those that are like `of` vcdedit-amend first does `act`."""

    def __init__(self, name, files=FILES, of="", act=""):
        self.folder, self.environment = os.path.abspath(name), dict(os.environ)
        if act:
            act = STAND_IN % (of, act, os.environ["VCDEDIT_AMEND"])
            self.environment["VCDEDIT_AMEND"] = store_program(self.folder + ".amend", text=act)
        for name, text in {"script": SCRIPT, **files}.items():
            os.chmod(store(self.folder, name, text=text), MODE)

    def files(self):
        """{path: text and mode} of all regular files."""
        return {os.path.relpath(path, self.folder): (load(path).decode("latin-1"), os.stat(path).st_mode & 0o777)
                for path in paths_below(self.folder) if os.path.isfile(path) and not os.path.islink(path)}

    def run(self, words, **how):
        """(status, lines, what is told) of the tool, after words of a shell."""
        words = ["sh", "-c", 'exec "$0" ' + words, APPLY]
        status, shown, errors = run(words, cwd=self.folder, env=self.environment, text=False, **how)
        return status, os.fsdecode(shown).splitlines(), os.fsdecode(errors)

    def check(self, words, status, shown, texts, *told, **how):
        """Whether a run ends so, shows this, gives files these texts and the mode, changes no other, and tells this."""
        before, (ended, lines, errors), after = self.files(), self.run(words, **how), self.files()
        lines = [line.replace(self.folder, "FOLDER").replace(AS_LINE, "") for line in lines]
        changes = {path: after.get(path) for path in {**before, **after} if before.get(path) != after.get(path)}
        changes = {re.sub("(?<=apply-)[^/]+", "RANDOM", path): state for path, state in changes.items()}
        right = (ended, sorted(lines) if "--jobs" in words else lines) == (status, shown)
        right &= changes == {path: (text, MODE) for path, text in texts.items()}
        right &= bool(errors) == bool(told) and all(errors.count(text) == 1 for text in told)
        right &= (": output: " in errors) == (": output: " in "".join(told))
        return "%r: %s" % (words, (ended, lines, errors, list(changes))), right


def runs():
    stays = [("script " + words + dry, 4, ["%s: %s" % (words.split()[0], reason)], {})
             for words, reason in STAYS.items() for dry in ("", " --dry-run")]
    refused = [("/dev/stdin A << .\n%s\n." % lines, 1, ["A: as it was: 1 line refused"], {}, *told)
               for lines, *told in REFUSED]
    for number, row in enumerate([*RUNS, *stays, *refused]):
        place = Folder("runs/%d" % number)
        for name, target in LINKS.items():
            os.symlink(target, os.path.join(place.folder, name))
        for name in ("fixed", "kept/A"):
            os.chmod(os.path.join(place.folder, name), 0o440)
        for name in ("pipe", "kept/p"):
            os.mkfifo(os.path.join(place.folder, name))
        yield place.check(*row)


def fails():
    """Whatever ends a run, its capture stays and has one line, no other file is left, and the others are written."""
    files, both = dict.fromkeys("ABC", LINE), {"A": DONE, "A.orig": LINE, "C": DONE, "C.orig": LINE}
    for number, (of, act, status, reason, *told) in enumerate(FAILING):
        place = Folder("fails/%d" % number, files, of, act)
        lines = ["A: written: 1 ok", "B: as it was: " + reason, "C: written: 1 ok"]
        lines.append("2 written, 1 not, status %d" % status)
        yield place.check("script A B C --backup .orig", status, lines, both, *told)
    # A link that comes while the program runs is replaced, and not followed.
    place = Folder("fails/link", {"A": LINE, "out/A": LINE}, "*-o*", "ln -s ../out/A new/A")
    yield place.check("script A --into new", 0, ["A: written to new/A: 1 ok"], {"new/A": DONE})


def remarks():
    """What is remarked on lines and on the output is told of each capture, once."""
    output = "output: removed, but another variable of the same code stays: top.secret"
    act = r"case $* in *--quiet*) ;; *) printf 'vcdedit-amend: memory may run out: 1 GB\nline 3: seen\n' >&2; "
    act += "echo '%s' >&2 ;; esac" % output
    place = Folder("remarks", {"A": LINE, "script": "bad\n" + SCRIPT}, ANY, act)
    told = "A: script line 2: seen\n", "A: script line 1: bad: UnknownCommand\n", "A: %s\n" % output
    runs = (" -q --dry-run", "would be written", {}, told[1:2]), ("", "written", {"A": DONE}, told)
    for words, what, texts, lines in runs:
        yield place.check("script A --keep-going" + words, 1, ["A: %s: 1 ok, 1 line refused" % what], texts, *lines)
    # More than a pipe holds, before the first reply.
    place = Folder("remarks/many", {"A": LINE, "script": "deglitch tb.rx 3\nundo\n" * 2000 + "bad\n"})
    status, _, errors = place.run("script A --keep-going")
    numbers = [line.split()[3] for line in errors.splitlines() if "pulses removed" in line]
    yield same("many remarks", (status, numbers), (1, ["%d:" % number for number in range(1, 4001, 2)]))


def given():
    """What a new capture still shows of what was removed or forced is found, also if all is looked at bit by bit."""
    place = Folder("given", {"A": GIVEN})
    for words, wanted in SHOWN:
        _, (line,), errors = place.run(words + " /dev/null" * ("--line" not in words) + " A --into new")
        found = re.findall("^A: output: ((?:removed, but (?!another variable of)|forced).*)", errors, re.M)
        yield same(words, (found, bool(re.fullmatch(r"A: written to new/A: \d ok, end \d+, .*", line))), (wanted, True))
    # Before the window v0 and v1 differ.
    one, *others = ("$var wire 1 %s v%d $end\n" % (code, place) for place, code in enumerate("!()"))
    text = "$comment vcdedit-amend: ticks 2 to end variables 2 of 3 $end $enddefinitions $end\n" + "".join(
        "#%d\n%d!\n%d(\n%d)\n" % (n, n % 2, (n + (n < 2)) % 2, n % 2 and n < 7) for n in range(9))
    old, new = store("old", text=one + "".join(others) + text), store("new", text="".join(others) + text)
    with open(old, "rb") as old, open(new, "rb") as new:
        with unittest.mock.patch("vcd_traces.SLICE", 1):
            yield same("bit by bit", [*vcd_traces.traces_of(old, new, set(), True)], [STAYS_OF + "v0: v1"])


def many_names():
    """Of many unknown words, in a capture with as many signals as there can be, near names are found in little time."""
    declared = "".join("$var wire 1 ! top.u%d.stage%d_q $end\n" % (place % 50, place) for place in range(65536))
    lines = "".join("value top.x.stage%d_Q 5\n" % number for number in range(20))
    place = Folder("many_names", {"A": declared + "$enddefinitions $end #0 1! #5\n", "script": lines})
    status, _, errors = place.run("script A", timeout=60)
    yield same("names", (status, errors.count(": near names are top.u")), (1, 10))


def interrupted():
    """The run that writes the second capture sends the tool a signal. Both end at once, even if the tool is killed."""
    lines = ["A: written: 1 ok", "B: as it was: interrupted", "C: as it was: interrupted"]
    for number in (signal.Signals["SIG" + name] for name in "INT TERM HUP QUIT ALRM USR1 USR2 XCPU KILL".split()):
        # The check waits as long as the run has the tool's standard output.
        act = "exec 6> /proc/$PPID/fd/1; kill -%d $PPID; exec sleep 20" % number
        place = Folder("interrupted/%d" % number, dict.fromkeys("ABC", LINE), WRITES, act)
        if number == signal.SIGKILL:
            left = {"A": DONE, ".vcdedit-apply-RANDOM/B": LINE}
            yield place.check("script A B C", -number, lines[:1], left, timeout=10)
            continue
        ends = [*lines, "1 written, 2 not, status %d" % (128 + number)]
        # The tool gets the signal even if this check was started with it ignored, as `nohup` does.
        how = {"timeout": 10, "preexec_fn": lambda: signal.signal(number, signal.SIG_DFL)}
        yield place.check("script A B C", 128 + number, ends, {"A": DONE}, **how)


def alone():
    """Of two runs at once on one file no edit is lost that was shown as written."""
    place, seen = Folder("alone", {"to_x": "rename x x2\n", "to_y": "rename y y2\n"}), set()
    declared = "".join("$var wire 1 ! %s $end\n" % name for name in "xy")
    for _ in range(8):
        store("alone/A", text=toggling(5000, declared))
        place.run('to_x A > x & "$0" to_y A > y; wait')
        are_written = [load("alone", name) == b"A: written: 1 ok, end 5000, timescale none\n" for name in "xy"]
        are_there = [b" %s2 " % name in load("alone/A") for name in (b"x", b"y")]
        seen.add((are_written == are_there, any(are_written)))
    yield same("two runs at once", seen, {(True, True)})
    store("alone/A", text=toggling(5000, declared))
    for _ in range(4):
        lines = place.run('to_x A --into one & "$0" to_y A --into two; wait')[1]
        yield same("two runs that only read", ["written to" in line for line in lines], [True] * 2)


def ends():
    """What ends a run, and can't from outside: a folder that is closed to all, no memory, or what nobody foresaw."""
    tool, path, patch = module_of("tools/vcdedit-apply"), os.path.abspath("A"), unittest.mock.patch
    for change, status, told in (
        (patch("os.access", return_value=False), 4, "%s is no folder in which files may be made" % os.getcwd()),
        (patch.object(vcd_runs.Run, "listing", side_effect=MemoryError), 5, "out of memory"),
        (patch.object(vcd_runs.Run, "listing", side_effect=KeyError("e")), 4, "KeyError: 'e'"),
        # In the moment in which the capture is replaced another program opens it.
        (patch.object(tool, "has_writer", side_effect=[False, True]), 4, WRITER),
    ):
        store(path, text=LINE)
        work = tool.Work(tool.options_of([store("script", text=SCRIPT), path]))
        work.show = unittest.mock.Mock()
        with change:
            found = work.carry_out(path), work.show.call_args_list, load(path)
        shown = [unittest.mock.call("%s: as it was: %s" % (path, told))]
        yield same("ends", found, ((status, False), shown, LINE.encode()))


def check():
    for part in runs, fails, remarks, given, many_names, interrupted, alone, ends:
        for name, right in () if IS_UNPROVED and part == many_names else part():
            yield "%s: %s" % (part.__name__, name), right
