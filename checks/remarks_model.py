"""What vcdedit-amend remarks, a second time: plain and slow, tick by tick, as docs/SCRIPT.md and its manual page say.

What may mislead is found by a function for each command, which gives for each remark its words and where that is found:
ticks, or ticks with how many of them it lasts.
"""

import re
from itertools import groupby, pairwise

import model
from common import EDITS

NAME_OF_SKIPPED = b"a signal would get the full name of a variable that is not edited\n"
EARLIER_MARK = "output: the mark of an earlier run stays, and tells nothing of this one\n"


def shown(name):
    return re.sub("[^ -~]", "?", name)


def told_of(what, names):
    """The remark on these names, of which it shows at most five; nothing on none."""
    more = ", and %d more" % (len(names) - 5) if names[5:] else ""
    return "output: %s: %s%s\n" % (what, ", ".join(map(shown, names[:5])), more) if names else ""


def told_of_end(text):
    """What is remarked on a capture whose last line has no line feed."""
    return "" if text.endswith(b"\n") else "capture: the last line has no line feed, so the file may be cut short\n"


def finding(what, found):
    """The remark on these ticks, or spans that begin with a tick and how many they are. It shows the first five."""
    ticks, lasting = found, ""
    if isinstance(found[0], tuple):
        ticks, lasting = [one[0] for one in found], " (ticks at most: %d)" % max(one[1] for one in found)
    return "%s: %d%s, at %s%s" % (what, len(found), lasting, ", ".join(map(str, ticks[:5])), ", .." * bool(ticks[5:]))


def runs_of(values):
    """The runs of one value: (first tick, ticks, value). All but the first and the last are within the capture."""
    runs, first = [], 0
    for value, run in groupby(values):
        runs.append((first, len(list(run)), value))
        first += runs[-1][1]
    return runs


# Edits


def deglitch(capture, position, ticks):
    runs = runs_of(capture.signals[position].values)
    pulses = [run for run in runs[1:-1] if run[1] < ticks]
    kept = [run for run in runs if run not in pulses]
    gaps = [(after[0] - before[0] - before[1], before, after) for before, after in pairwise(kept)]
    yield "deglitch: pulses removed", pulses
    yield ("deglitch: stretches removed that only pulses made shorter",
           [(after[0] - gap, gap) for gap, _, after in gaps if gap >= ticks])
    yield ("deglitch: edges right after removed pulses, so late",
           [(after[0], gap) for gap, before, after in gaps if gap and before[2] != after[2]])
    yield "deglitch: short runs at tick 0 or the end, which stay", [run for run in kept if run[1] < ticks]


def changes(capture, position):
    """The ticks at which a signal changes, also at tick 0 from x."""
    values = capture.signals[position].values
    return [tick for tick, value in enumerate(values) if value != (values[tick - 1] if tick else "x" * len(value))]


def shift(capture, position, by):
    ticks = changes(capture, position)
    yield "shift: changes moved past the end", [tick for tick in ticks if tick + by > capture.end]
    yield "shift: edges moved before tick 0", [tick for tick in ticks if tick and tick + by < 0]


def invert(capture, position):
    values = capture.signals[position].values
    yield ("invert: changes with z, which becomes x",
           [tick for tick in changes(capture, position) if "z" in values[tick]])


def force(capture, position, start, stop, letters):
    value = model.extended(letters, capture.signals[position].width)
    left = changes(model.force(capture, position, start, stop, value), position)
    yield "force: changes taken out", [tick for tick in changes(capture, position) if tick not in left]


# Decoders


def lost(line, letters="xz"):
    """Where a line becomes one of these letters."""
    return [tick for tick in range(1, len(line)) if line[tick - 1] not in letters and line[tick] in letters]


def goes_straight(line, tick):
    return model.rises(line, tick) or model.falls(line, tick)


def uart(capture, position, bit, data, parity, stop):
    line, (ticks, bits) = capture.signals[position].values, bit
    runs, last = runs_of(line), data + (parity != "none") + stop
    frame = (2 * last + 1) * ticks // (2 * bits) + 1
    falls = [(before, after[0]) for before, after in pairwise(runs) if (before[2], after[2]) == ("1", "0")]
    within = [run[0] for run in runs[1:-1]]
    frames = list(model.uart(line, bit, data, parity, stop))
    yield "uart: the line becomes x or z", lost(line)
    yield ("uart: first fall after less than a frame of idle line (within a frame, or inverted?)",
           [tick for before, tick in falls[:1] if before[1] < frame and line[0] in "01"])
    yield ("uart: runs within the line, none shorter than one and a half bits (is BIT right?)",
           within if all(2 * run[1] * bits >= 3 * ticks for run in runs[1:-1]) else [])
    yield ("uart: edges within frames more than a quarter of a bit early or late (is BIT right?)",
           [run[0] for run in runs if any(
               first < run[0] < last and ticks < 4 * ((run[0] - first) * bits % ticks) < 3 * ticks
               for first, last, _ in frames)])


def short(runs, usual):
    """The first ticks of runs that have less than a quarter of the least power of two that three of four usual ones
    stay below."""
    power = 1
    while 4 * sum(run[1] < power for run in usual) < 3 * len(usual):
        power *= 2
    return [run[0] for run in runs if 4 * run[1] < power]


def spi(capture, *operands):
    clock, mosi, miso, select = [None if position is None else capture.signals[position].values
                                 for position in operands[:4]]
    is_rise = operands[4] in (0, 3)
    samples = [tick for tick in range(1, len(clock)) if (model.rises if is_rise else model.falls)(clock, tick)]
    runs = [run for run in runs_of(clock)[1:-1] if run[2] in "01"]
    yield "spi: CLK becomes x or z", lost(clock)
    for level in "01":
        of_level = [run for run in runs if run[2] == level]
        yield "spi: runs of CLK at %s much shorter than most, such as spikes" % level, short(of_level, of_level)
    for name, line in (("MOSI", mosi), ("MISO", miso)):
        if line:
            yield from data_line("spi: %s " % name, name, line, clock, select, samples, runs, "01"[is_rise])
    if select:
        yield "spi: CS becomes x or z", lost(select)
        yield ("spi: sampling edges at which CS changes",
               [tick for tick in samples if (select[tick - 1] == "0") != (select[tick] == "0")])
        yield ("spi: sampling edges while CS is not 0, and none while it is",
               samples if all(select[tick] != "0" for tick in samples) else [])


def data_line(head, name, line, clock, select, samples, runs, level):
    """What is found of a data line that is sampled where the clock goes to this level."""
    straight = [tick for tick in range(1, len(line))
                if goes_straight(line, tick) and (select is None or select[tick] == "0")]
    late = [tick for tick in straight if clock[tick - 1] == clock[tick] == level]
    early = [tick for tick in straight if clock[tick] not in level + "xz"]
    yield (head + "becomes x or z while the chip is selected",
           [tick for tick in lost(line) if select and select[tick] == "0"])
    yield ("spi: runs of %s much shorter than those of CLK, such as spikes" % name,
           short([run for run in runs_of(line)[1:-1] if run[2] in "01"], runs))
    yield (head + "changes as it is sampled, so that its setup is 0 (is MODE right?)",
           [tick for tick in straight if tick in samples])
    yield (head + "changes after samples rather than before them (is MODE right?)",
           late if len(late) > len(early) else [])


def i2c(capture, *operands):
    lines = ["".join(capture.signals[position].values) for position in operands]
    scl, sda = (line.replace("z", "1") for line in lines)
    cuts, stray, start, rises = [], [], None, 0
    for tick in range(1, len(scl)):
        if model.rises(scl, tick):
            stray += [tick] if start is None and rises else []
            rises += 1
        elif scl[tick - 1] == scl[tick] == "1" and goes_straight(sda, tick):
            cuts += [tick] if start is not None and rises % 9 != 1 else []
            start, rises = tick if model.falls(sda, tick) else None, 0
    yield "i2c: SCL becomes x", lost(scl)
    yield "i2c: SDA becomes x", lost(sda)
    yield "i2c: starts and stops that do not come right after an acknowledge (is SCL named first?)", cuts
    yield "i2c: bits outside transfers", stray
    yield "i2c: last start, which no stop follows", [] if start is None else [start]
    yield ("i2c: ticks at which SCL rises and SDA changes",
           [tick for tick in range(1, len(scl)) if model.rises(scl, tick) and goes_straight(sda, tick)])


FINDERS = {finder.__name__: finder for finder in (deglitch, shift, invert, force, uart, spi, i2c)}


# A run


def remarks_on_line(words, before, session, refusal):
    """What is told of a line that a session has carried out on this capture, or refused."""
    if session.operands is None or refusal == "BadValueText" or refusal and words[0] not in EDITS:
        return
    names = [signal.full_name() for signal in before.signals]
    for position in session.meant:
        name = names[position]
        if names.count(name) > 1 and names.index(name) == position and name in words:
            yield "%d signals are called %s: @%d is meant" % (names.count(name), shown(name), position)
    if words[0] in FINDERS and not refusal:
        yield from (finding(what, found) for what, found in FINDERS[words[0]](before, *session.operands) if found)


def remarks_on_output(declared, last):
    """What is told of a file that declares these variables, if it is to mean this capture."""
    left = {signal.origin: signal.values for signal in last.signals if signal.origin is not None}
    values = {code: {left[one.origin] for one, other in declared if other == code and one.origin in left}
              for code in {code for _, code in declared}}
    lasting = [code for one, code in declared if one.kind != "event"]
    rows = [(one.full_name(), one.origin in left, one.origin is None, code) for one, code in declared]
    return (told_of("variables of one code that differ from now on",
                    [name for name, is_left, _, code in rows if is_left and len(values[code]) > 1])
            + told_of("removed, but another variable of the same code stays",
                      [name for name, is_left, is_skipped, code in rows if not is_left | is_skipped and values[code]])
            + told_of("events at the ticks that are cut are left out",
                      [name for name, _, _, code in rows if last.is_cut and code not in lasting]))


def run(text, script, depth):
    """(status, replies, errors, what is written or None) of vcdedit-amend. What is written is that of vcdedit."""
    told = []
    watch = lambda place, *line: told.extend("line %d: %s\n" % (place, remark) for remark in remarks_on_line(*line))
    session, status, replies, errors = model.carry_out(text, script, depth, watch)
    if session is None:
        return status, replies, errors.replace(b"vcdedit:", b"vcdedit-amend:"), None
    first, last = session.first, session.capture
    skipped = [one.full_name() for one, _ in first.declared if one.origin is None]
    # a name is new if it was derived, or if its own words are others than in the file
    if any(signal.full_name() in skipped for signal in last.signals
           if signal.origin is None or signal.name != first.signals[signal.origin].name):
        return 1, b"", b"vcdedit-amend: NameOfSkipped: " + NAME_OF_SKIPPED, None
    told += remarks_on_output(first.declared, last), told_of_end(text)
    return status, replies, "".join(told).encode("latin-1"), model.written(last).encode("latin-1")
