"""Runs of the program: what it lists of a capture, and its replies to the lines of a script."""

import bisect
import collections
import contextlib
import itertools
import os
import re
import shutil
import signal
import subprocess

import vcd_files
import vcd_messages
from vcd_files import NO_ROOM, Trouble, program, shown

# The signals that end a run, and that a user or a system sends.
INTERRUPTIONS = [signal.Signals["SIG" + name] for name in "INT TERM HUP QUIT ALRM USR1 USR2 XCPU".split()]
# The commands of a script that edit.
EDITS = b"rename remove invert shift cut deglitch force derive".split()
# Lines without words and comments have no reply, others one, and those of MANY any number, so a listing comes behind
# them, which begins with HEAD. Among the replies of `spi` are the changes of CS.
DECODERS, MANY, HEAD = {b"uart", b"spi", b"i2c"}, {b"uart", b"spi", b"i2c", b"changes"}, b"timescale "
# Remarks of vcdedit-amend on standard error: on a line, by its number, and on its output and the capture.
REMARK = re.compile(r"^line (\d+): (.*)\n", re.M)
FILE_REMARK = re.compile("^((?:output|capture): (?!the file).*)\n", re.M)
# Other lines there that are no error: what replies show too, and what is said of memory and by first-look.
OTHERS = re.compile("^(?:vcdedit-amend: (?:memory may run out|LineRefused)|first-look(?:-amend)?): .*\n", re.M)
# What a run begins with so that it ends with the tool, even if that is killed.
GUARD = ["setpriv", "--pdeathsig", "TERM"] if shutil.which("setpriv") else []

# What `list` says: the timescale or `none`, the last tick, and the names of the signals.
Listing = collections.namedtuple("Listing", "timescale end names")


def on_interruption(act):
    """Has this called at an interruption. One that is passed over, as by `nohup`, stays so."""
    for number in INTERRUPTIONS:
        if signal.getsignal(number) != signal.SIG_IGN:
            signal.signal(number, act)


def listed(lines):
    """The lines of the listing that some lines begin with, of which no more are taken."""
    head = list(itertools.islice(lines, 4))
    return [*head, *itertools.islice(lines, int(head[2].split()[1]))] if head[2:] else head


def listing_of(lines):
    """What the lines of a listing say."""
    head = dict(line.rstrip(b"\n").split(b" ", 1) for line in lines[:4])
    names = [line.rstrip(b"\n").split(b" ", 3)[3] for line in lines[4:]]
    return Listing(shown(head[b"timescale"]), int(head[b"end"]), names)


def asked(line):
    """What a script has for a line: behind one with many replies come the changes of a CS, and a listing."""
    command, *words = line.split() or [b""]
    changes = b"changes %s\n" % words[3] if command == b"spi" and words[3:4] not in ([], [b"-"]) else b""
    return line + b"\n" + (changes + b"list\n" if command in MANY else b"")


class Run(contextlib.AbstractContextManager):
    """A run of vcdedit-amend on a capture that is open for bytes. It lists, and then answers lines of a script."""

    def __init__(self, source, lines, words=(), path="/dev/stdin", umask=-1):
        """`words` are more options. The program opens the capture by a path."""
        self.source, self.given, self.program = source, lines, program("vcdedit-amend")
        self.lines = vcd_files.lines_in_ticks(lines, source)
        # The numbers of the lines in the script below.
        texts = list(map(asked, self.lines))
        self.numbers = list(itertools.accumulate((text.count(b"\n") for text in texts), initial=2))
        with open(os.memfd_create("script"), "wb") as script:
            script.write(b"list\n" + b"".join(texts))
            script.flush()
            words = [*GUARD, self.program, "-i", path, "--script", "/dev/fd/%d" % script.fileno(), *words]
            # Remarks may be longer than a pipe holds, which nobody reads while replies come.
            self.errors = open(os.memfd_create("errors"), "w+b")
            self.child = subprocess.Popen(words, 1 << 20, stdin=source, stdout=subprocess.PIPE, stderr=self.errors,
                                          env={**os.environ, "LC_ALL": "C"}, umask=umask, pass_fds=[script.fileno()])

    def __exit__(self, *_):
        self.child.terminate()
        self.child.communicate()
        self.errors.close()

    def listing(self):
        """What the program lists of the capture first."""
        try:
            return listing_of(listed(self.child.stdout))
        except (KeyError, ValueError, IndexError):
            self.want_end()
            raise Trouble("%s is no vcdedit" % self.program) from None

    def replies(self):
        """(place of a line, reply) of each reply to the lines."""
        replies = iter(self.child.stdout.readline, b"")
        for place, command in enumerate(map(command_of, self.lines)):
            said = itertools.islice(replies, int(command[:1] not in (b"", b"#")))
            if command in MANY:
                said = itertools.takewhile(lambda one: not one.startswith(HEAD), replies)
            elif command == b"list" and (one := list(said)):
                said = listed(itertools.chain(one, replies)) if one[0].startswith(HEAD) else one
            yield from ((place, reply[:-1]) for reply in said)
            if command in MANY:
                listed(itertools.chain([HEAD], replies))
        self.want_end()

    def told(self):
        """What the program has written to standard error."""
        self.errors.seek(0)
        return self.errors.read().decode("utf-8", "replace")

    def remarks(self):
        """(place of a line, remark) of each line that is carried out otherwise, and each remark of the program."""
        for place, line in enumerate(self.lines):
            if line is not self.given[place]:
                yield place, "carried out as: " + shown(line)
        for number, remark in REMARK.findall(self.told()):
            yield bisect.bisect(self.numbers, int(number)) - 1, remark

    def want_end(self):
        """Waits for the run's end, and raises what went wrong. A line that is refused is nothing wrong."""
        status = self.child.wait()
        # The script that starts the program ends with 128 and the signal.
        number, errors = -status if status < 0 else status - 128, self.told()
        for no_error in REMARK, FILE_REMARK, OTHERS:
            errors = no_error.sub("", errors)
        if number in INTERRUPTIONS:
            raise Trouble("interrupted", status=128 + number)
        if number == signal.SIGXFSZ:
            raise Trouble("the new capture is larger than a file may be (ulimit -f)")
        if status > 5 and any(text in errors for text in NO_ROOM):
            raise Trouble("out of memory", status=5)
        if number > 0:
            raise Trouble("the run was ended by signal %d; without memory the system does that" % number, status=5)
        if status > 1 or status and errors:
            raise Trouble(*vcd_messages.told_end(errors, self.source), status=status)


def command_of(line):
    return b"".join(line.split()[:1])


def refusal_of(reply):
    """Why a line is refused, if this reply says that."""
    found = re.fullmatch(rb"line \d+: refused: (\w+)", reply)
    return found and shown(found.group(1))
