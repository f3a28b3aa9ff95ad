"""What the tools around vcdedit share: how they begin and end, captures, scripts, and rows.

Words, names and codes are bytes, as they stand in the file; `shown` makes text of them.
"""

import os
import signal
import sys


# What the system says of a program or a library that does not fit in memory, in English.
NO_ROOM = "failed to map segment", "annot allocate memory"


def end_badly(kind, error, trace):
    """Ends a tool that foresaw no such end, or had not begun. The status 1 would say something of a capture."""
    sys.__excepthook__(kind, error, trace)
    os._exit(5 if issubclass(kind, MemoryError) or any(text in str(error) for text in NO_ROOM) else 4)


sys.excepthook = end_badly
# While a tool starts, an interruption ends it without a word, unless it is passed over, as by `nohup`.
if signal.getsignal(signal.SIGINT) == signal.default_int_handler:
    signal.signal(signal.SIGINT, signal.SIG_DFL)

import argparse
import collections
import contextlib
import errno
import fractions
import io
import itertools
import json
import pickle
import re
import shutil
import tempfile
import threading

# A stamp may begin with any number of zeros.
getattr(sys, "set_int_max_str_digits", int)(0)

VERSION = "1.0.0"

DUMP_WORDS = {b"$dumpvars", b"$dumpall", b"$dumpon", b"$dumpoff", b"$end"}
UNITS = ["s", "ms", "us", "ns", "ps", "fs"]
CHUNK = 65536
# The letters of values, each as the program writes it, and those at the front without which a value is the same.
LETTERS, SPARE = bytes.maketrans(b"LlHhXUuWw-Z", b"0011xxxxxxz"), re.compile(rb"0+(?=[01])|x+(?=x)|z+(?=z)|").match
# The first letters of changes; those of one digit with its value.
SCALARS = {letter: b"%c" % LETTERS[letter] for letter in b"01lLhHxXuUwWzZ-"}
VECTORS, REALS = frozenset(b"bB"), frozenset(b"rRsS")
STAMP, DOLLAR = b"#$"
# The words of a line that are times, by its command, and such a word with a unit.
TIMES = {b"shift": [2], b"cut": [1, 2], b"deglitch": [2], b"force": [2, 3], b"value": [2], b"uart": [2]}
UNITED = re.compile(rb"([-+]?)(?:([0-9]{1,20}(?:\.[0-9]{1,15})?)([munpf]?s)|([1-9][0-9]{0,19})baud)")
LINES_SHOWN = 10
# How many rows a spool writes at a time, and a reading of them holds.
ROWS_AT_ONCE = 256
# The options for a part, as the program has them.
PART = [
    ("--keep", "PATTERN", "keep only variables whose full names match"), ("--remove", "PATTERN", "leave these out"),
    ("--from", "TIME", "the first tick of a part, or a time as 1.5ms"), ("--to", "TIME", "its last one"),
]


class Trouble(Exception):
    """Why a tool ends or leaves a capture as it is: a line for its user, the status, and more lines."""

    def __init__(self, reason, *more, status=4):
        super().__init__(reason)
        self.lines, self.status = [reason, *more], status


def trouble_of(error, path=None):
    """Any exception as trouble with this capture. Lack of memory has a status of its own."""
    if isinstance(error, MemoryError) or getattr(error, "errno", None) == errno.ENOMEM:
        return Trouble("out of memory", status=5)
    if isinstance(error, OSError):
        name = error.filename2 or error.filename
        return Trouble("%s: " % name * (name not in (None, path)) + (error.strerror or str(error)))
    return error if isinstance(error, Trouble) else Trouble("%s: %s" % (type(error).__name__, error))


# The text of a name, which is written as the bytes that the file has.
shown = os.fsdecode


def escaped(text):
    """A text in which what can't be printed is written as bytes in hexadecimal."""
    letters = (one if one.isprintable() else re.sub("(..)", r"\\x\1", os.fsencode(one).hex()) for one in text)
    return text if text.isprintable() else "".join(letters)


class Output(io.TextIOWrapper):
    """A stream of text with names in it. On a terminal they can't do what escape sequences do."""

    def __init__(self, number):
        # Without a buffer (PYTHONUNBUFFERED) a write that takes only a part would be passed over.
        super().__init__(open(number, "wb", closefd=False), sys.getfilesystemencoding(), "surrogateescape")

    def write(self, text):
        return super().write("\n".join(map(escaped, text.split("\n"))) if self.isatty() else text)


def counted(count, what):
    """`2 variables` of 2 and `variable%s`."""
    return "%d %s" % (count, what % ("s" * (count != 1)))


def shortened(rows, told=lambda row: [row]):
    """Lines about the first of some rows, and how many more there are."""
    rows = iter(rows)
    lines = [line for row in itertools.islice(rows, LINES_SHOWN) for line in told(row)]
    more = sum(1 for _ in rows)
    return lines + ["and %d more" % more] * (more > 0)


@contextlib.contextmanager
def naming(place):
    """Trouble with a file without a name is told of this place."""
    try:
        yield
    except OSError as error:
        error.filename = error.filename or place
        raise


class Spool:
    """Rows, of which a file in TMPDIR holds all but the last few. They can be read again, and side by side."""

    # All spools of a process share one file, which is memory while it is short.
    file, lock = tempfile.SpooledTemporaryFile(CHUNK), threading.Lock()

    def __init__(self):
        self.places, self.last = [], []

    def append(self, row):
        self.last.append(row)
        if len(self.last) == ROWS_AT_ONCE:
            self.put_away()

    def put_away(self):
        with naming("TMPDIR"), self.lock:
            self.file.seek(0, os.SEEK_END)
            self.places.append(self.file.tell())
            pickle.dump(self.last, self.file)
        self.last = []

    def __iter__(self):
        for place in self.places:
            with naming("TMPDIR"), self.lock:
                self.file.seek(place)
                rows = pickle.load(self.file)
            yield from rows
        yield from self.last


def state_of(path):
    """What tells a file, and a state of it, from others. None if it is not there."""
    with contextlib.suppress(OSError):
        found = os.stat(path)
        return found.st_dev, found.st_ino, found.st_size, found.st_mtime_ns


def want_state(place, state):
    """Ends where another program has changed what is at a place since this state of it."""
    if state_of(place) != state:
        raise Trouble("another program writes it: run again when that has ended")


def is_protected(path):
    """Whether a file is there and write-protected: to the superuser, too, by its mode."""
    return os.path.exists(path) and not (os.access(path, os.W_OK) and os.stat(path).st_mode & 0o222)


def program(name="vcdedit"):
    """A program: what VCDEDIT, or VCDEDIT_AMEND, names, or is next to this tool, one folder above, or on the path."""
    here, crate = os.path.dirname(os.path.realpath(sys.argv[0])), name.replace("-", "_")
    named = os.environ.get(crate.upper())
    folders = os.pathsep.join([here, os.path.dirname(here), os.environ.get("PATH", os.defpath)])
    found = shutil.which(named or name, path=folders)
    if not found:
        raise Trouble("there is no program %s: say in %s where it is" % (named or name, crate.upper()))
    # A tree that is not built would build within the run, and nobody sees for how long.
    crates = os.path.join(os.path.dirname(found), "crates")
    if os.path.isdir(crates) and not named and not os.path.exists(os.path.join(crates, crate, "out", crate)):
        raise Trouble("%s is not built: `make` does that, in some forty minutes" % name)
    return found


def words_of(file):
    """The words of a file."""
    file.seek(0)
    rest = b""
    # The longer the word that may go on, the more is read.
    while chunk := file.read(max(CHUNK, len(rest))):
        # With a letter behind it a chunk ends in a word: the one that may go on.
        *words, rest = (rest + chunk + b".").split()
        rest = rest[:-1]
        yield from words
    yield from rest.split()


def declared_in(file):
    """Each command of the declarations of an open file: its kind, its words, and the full name if it is a variable."""
    scopes, words = [], words_of(file)
    for kind in itertools.takewhile(lambda word: word[0] == DOLLAR, words):
        command = list(itertools.takewhile(b"$end".__ne__, words))
        if kind == b"$scope":
            scopes.append(b"".join(command[1:]))
        elif kind == b"$upscope":
            del scopes[-1:]
        yield kind, command, b".".join([*scopes, b"".join(command[3:])]) if kind == b"$var" else None
        if kind == b"$enddefinitions":
            return


def in_ticks(line, timescale):
    """A line of a script with ticks in place of times with units, where these are whole, or a fraction for BIT."""
    words = line.split()
    for place in TIMES.get(b"".join(words[:1]), ()):
        if found := UNITED.fullmatch(b"".join(words[place : place + 1])):
            sign, number, unit, rate = map(shown, found.groups(b""))
            count = 1 / fractions.Fraction(rate) if rate else fractions.Fraction(number)
            ticks = count * unit_ticks(unit or "s", timescale)
            if words[0] == b"uart" or not rate and ticks.denominator == 1:
                words[place] = os.fsencode(sign + str(ticks))
    return line if words == line.split() else b" ".join(words)


def lines_in_ticks(lines, file):
    """Lines of a script for a file that is open, with their times in its ticks."""
    scales = [b"".join(words) for kind, words, _ in declared_in(file) if kind == b"$timescale"]
    scale = re.fullmatch(rb"(10{0,2})([munpf]?s)", b"".join(scales[-1:]))
    return [in_ticks(line, shown(b"%s %s" % scale.groups())) for line in lines] if scale else lines


def changes_in(words):
    """(tick, code, value, letters) of each change, the value in the fewest, or none of a real; no code of a comment."""
    tick = 0
    for word in words:
        first = word[0]
        if first in SCALARS:
            yield tick, word[1:], SCALARS[first], word[:1]
        elif first == STAMP:
            tick = int(word[1:])
        elif first in VECTORS:
            value = word[1:].translate(LETTERS)
            yield tick, next(words, None), value[SPARE(value).end() :], word
        elif first in REALS:
            yield tick, next(words, None), None, word
        elif first == DOLLAR and word not in DUMP_WORDS:
            if word == b"$comment":
                yield tick, None, None, None
            collections.deque(itertools.takewhile(b"$end".__ne__, words), 0)


def unit_ticks(unit, timescale):
    """How many ticks a second, ms, .. has at a timescale such as '10 ns': a fraction."""
    number, of_tick = timescale.split(" ")
    return fractions.Fraction(1000) ** (UNITS.index(of_tick) - UNITS.index(unit)) / int(number)


def lines_of(options):
    """The lines of a script, or of standard input, and of the command line, as bytes."""
    texts = [os.fsencode(line) for line in options.line]
    if options.script is not None:
        with sys.stdin.buffer if options.script == "-" else open(options.script, "rb") as file:
            texts.insert(0, file.read().removesuffix(b"\n"))
    return b"\n".join(texts).split(b"\n")


def show_json(objects, name):
    """Shows an array with a line for each object, of which the rows that have this name are shown as they come."""
    print("[", end="")
    for place, one in enumerate(objects):
        # No text has this in it, since its quotes are escaped.
        head, begin, tail = json.dumps({**one, name: []}).partition('"%s": [' % name)
        print("," * bool(place), head + begin, sep="\n", end="")
        commas = itertools.chain([""], itertools.repeat(", "))
        sys.stdout.writelines(comma + json.dumps(row) for comma, row in zip(commas, one[name]))
        print(tail, end="")
    print("\n]")


@contextlib.contextmanager
def opened(path):
    """A capture that is read more than once: what is no regular file is copied first. Trouble within is told of it."""
    with naming(path + " or its copy in TMPDIR"):
        file = sys.stdin.buffer if path == "-" else open(path, "rb")
        if path == "-" or not os.path.isfile(path):
            given, file = file, tempfile.TemporaryFile()
            shutil.copyfileobj(given, file)
            file.seek(0)
    try:
        yield file
    except Trouble as trouble:
        trouble.lines[0] = "%s: %s" % (path, trouble.lines[0])
        raise


def parser_of(name, text, operands, meant):
    """A parser with operands, which mean this, and the options that each tool has."""
    usage = "%s [OPTION..] %s" % (name, operands)
    more = "`man %s` says more of each option, and explains the statuses." % name
    parser = argparse.ArgumentParser(name, usage, text, more, allow_abbrev=False)
    # A wrong word is shown as a name is.
    parser.error = lambda message: (parser.print_usage(sys.stderr), tell(name, "error: " + message), sys.exit(2))
    parser.add_argument("words", metavar=operands, nargs="*", help=meant)
    parser.add_argument("-V", "--version", action="version", version="%s %s" % (name, VERSION))
    parser.add_argument("-q", "--quiet", action="store_true", help="write no remarks to standard error")
    parser.add_argument("--script", metavar="SCRIPT", help="a file with lines before these, or - for standard input")
    for option, metavar, meant in PART:
        how = {"dest": "part", "action": "append", "default": [], "type": (option + "=").__add__}
        parser.add_argument(option, metavar=metavar, help=meant, **how)
    return parser


def parsed(parser, words):
    """The options that some words are. Behind `--` all are operands."""
    # Python parses these only if no options may stand between the others.
    place = words.index("--") if "--" in words else len(words)
    options = parser.parse_intermixed_args(words[:place])
    options.words += words[place + 1 :]
    return options


def in_one_line(text):
    """A text whose line feeds make no line but an indented one, as those of a path would."""
    return re.sub(r"\n(?!    )", r"\\x0a", text)


def tell(name, *lines):
    """Writes lines about what has this name to standard error. If that can't be written, the status tells the rest."""
    with contextlib.suppress(OSError), Output(2) as stream:
        stream.write(in_one_line("%s: %s" % (name, "\n    ".join(lines))) + "\n")


def end(name, main, written="standard output"):
    """Runs a tool, which may fail in what is written, and ends with its status."""
    try:
        # A file that is opened would be in the place of a stream that is closed.
        sys.stdout, sys.stdin = Output(1), sys.stdin or open(os.devnull)
        sys.stderr = sys.stderr or open(os.devnull, "w")
        try:
            status = main(sys.argv[1:])
        except SystemExit as ended:
            status = ended.code
        sys.stdout.flush()
    except (OSError, Trouble, MemoryError) as error:
        if isinstance(error, OSError):
            os.dup2(os.open(os.devnull, os.O_WRONLY), 1)
            error.filename = error.filename or written
        trouble = trouble_of(error)
        tell(name, *trouble.lines)
        status = trouble.status
    sys.exit(status)
