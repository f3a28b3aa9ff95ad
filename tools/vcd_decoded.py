"""What vcdedit-view and vcdedit-table share: lines of a script, and what those that decode say of a capture."""

import collections
import itertools
import re

import vcd_files
import vcd_runs
from vcd_files import Trouble, shown
from vcd_messages import told_refusals

OPERANDS = "CAPTURE LINE..", "the capture, or - for standard input; lines of a script, as 'i2c bench.scl bench.sda'"
CHANGING = {*vcd_runs.EDITS, b"undo", b"redo"}
# Remarks on variables that differ, and on the capture. Others on the output speak of a file that is not written here.
TOLD = re.compile("^(?:output: variables of one code|capture: (?!the file)).*", re.M)
# Words that are hardly meant as the ticks of a bit.
RATES = "1200 2400 4800 9600 19200 31250 38400 57600 115200 230400 460800 921600".split()

Annotation = collections.namedtuple("Annotation", "first last text")
ANNOTATION = re.compile(rb"(\d+)-(\d+) \w+ (.*)")
# What lines made of a capture: the numbers of those that edited, the listings before and after, and what was decoded.
Outcome = collections.namedtuple("Outcome", "edits first last decoded")


class Decoded(collections.namedtuple("Decoded", "number line decoder said remarks again")):
    """What a line decoded: its number, the replies, remarks on it, and the replies to it behind all lines."""

    def annotations(self):
        for found in filter(None, map(ANNOTATION.fullmatch, self.said)):
            yield Annotation(int(found[1]), int(found[2]), shown(found[3]))

    def selections(self):
        """How often CS has become 0 up to the first tick of each annotation, or None without CS."""
        levels, count = itertools.dropwhile(ANNOTATION.fullmatch, self.said), None
        level = next(levels, None)
        for one in self.annotations():
            while level and int(level.split()[0]) <= one.first:
                count, level = (count or 0) + level.endswith(b" 0"), next(levels, None)
            yield count

    def is_edited(self):
        """Whether a later line edits what it decodes."""
        return any(one != other for one, other in itertools.zip_longest(self.said, self.again))


def options_of(parser, words):
    """The options of a parser, with a capture and the lines of a script, as bytes."""
    options = vcd_files.parsed(parser, words)
    options.capture, *options.line = options.words or parser.error("there is no CAPTURE")
    if options.capture == options.script == "-":
        parser.error("standard input is the capture or the script")
    options.lines = vcd_files.lines_of(options)
    return options


def outcome_of(tool, options, source, words=()):
    """What lines make of a capture, by a run with these words, and remarks told. What was decoded above an edit is
    decoded again behind them."""
    commands = list(map(vcd_runs.command_of, options.lines))
    edits = [number for number, command in enumerate(commands, 1) if command in CHANGING]
    above = dict.fromkeys(options.lines[: max(edits, default=0)])
    again = [line for line in above if vcd_runs.command_of(line) in vcd_runs.DECODERS]
    with vcd_runs.Run(source, [*options.lines, b"list", *again], words) as run:
        # All are held, since none is shown if a later line is refused.
        first, replies, remarks = run.listing(), [vcd_files.Spool() for _ in run.lines], [[] for _ in run.lines]
        for found, places in (run.replies, replies), (run.remarks, remarks):
            for place, text in found():
                places[place].append(text)
        others = TOLD.findall(run.told())
    lines, told = run.lines[: len(commands)], []
    want_no_refusal(tool, lines, replies, first, source)
    decoded, at_end = [], dict(zip(run.lines[len(lines) + 1 :], replies[len(lines) + 1 :]))
    for number, (line, command, said, remarked) in enumerate(zip(lines, commands, replies, remarks), 1):
        told += ["line %d: %s" % (number, text) for text in remarked + told_rate(line, said, first.timescale)]
        if command in vcd_runs.DECODERS:
            decoded.append(Decoded(number, line, shown(command), said, remarked, at_end.get(line, said)))
    for text in [] if options.quiet else told + others:
        vcd_files.tell(tool, text)
    return Outcome(edits, first, vcd_runs.listing_of([*replies[len(lines)]]), decoded)


def want_no_refusal(tool, lines, replies, listing, source):
    """Ends if a line is refused, with what that means."""
    found = enumerate((vcd_runs.refusal_of(next(iter(said), b"")) for said in replies[: len(lines)]), 1)
    told = told_refusals([(number, name) for number, name in found if name], lines, listing, source)
    if told and lines[1:] and not any(b" " in line for line in lines):
        told.append("quote each line: %s CAPTURE 'uart top.rx 100 8 none 1'" % tool)
    if told:
        raise Trouble(*told, status=1)


def told_rate(line, replies, timescale):
    """A line about a BIT that is a baud rate, if no byte came of it."""
    rate = shown(line.split()[2]) if vcd_runs.command_of(line) == b"uart" else None
    if timescale == "none" or rate not in RATES or any(b" 0x" in reply for reply in replies):
        return []
    return ["uart: is %s a baud rate? BIT is how many ticks a bit lasts, or %sbaud" % (rate, rate)]
