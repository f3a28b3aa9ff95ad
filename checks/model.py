"""What vcdedit does, a second time: plain and slow, from the words of docs/FORMATS.md and docs/SCRIPT.md.

It was written without a look at the code. So where both agree, the pages say what the program does. A signal is the
list of its values at the ticks from 0 to the end, which must be near. A value is a text of the letters 0, 1, x and z,
most significant first. An edit makes a new capture. Files are texts of one letter a byte.
"""

import functools
import itertools
import re
from dataclasses import dataclass, replace

from common import text_at

WORD = r"[^ \t\n\v\f\r]+"
VALUE_OF = {letter: value for value, letters in {"0": "0lL", "1": "1hH", "x": "xXuUwW-", "z": "zZ"}.items()
            for letter in letters}
SKIPPED_KINDS = ["real", "realtime", "real_parameter", "shortreal", "event", "string"]
DUMP_WORDS = ["$dumpvars", "$dumpall", "$dumpon", "$dumpoff", "$end"]
NO_CHANGES = ["$scope", "$upscope", "$var", "$timescale", "$enddefinitions"]


def limit(what):
    """The greatest number that a row of the limits allows."""
    row = re.search(rf"^\| {what} \| ([^;(|]*)", text_at("docs/FORMATS.md"), re.M).group(1)
    return max(int(number.replace(",", "")) for number in re.findall(r"\d[\d,]*", row))


WIDEST, LATEST = limit("width of a kept variable"), limit("time stamp, end")
MOST_SIGNALS, DEEPEST = limit("signals"), limit("edits that can be undone")


def is_kept(kind, size):
    """Whether a variable of this kind and size is kept; it is skipped otherwise."""
    return kind not in SKIPPED_KINDS and 1 <= int(size) <= WIDEST


class Fault(Exception):
    """The name of a capture's first fault, and its line."""


class Refused(Exception):
    """The name of what is wrong with a line of a script."""


def want(holds, refusal):
    if not holds:
        raise Refused(refusal)


@dataclass(frozen=True)
class Signal:
    kind: str
    width: int
    name: tuple  # the words of its own name: the range may be one
    scopes: tuple  # of each its kind and the words of its name
    values: tuple = ()
    origin: int = None  # its place in the capture that was read, unless it was derived or is skipped

    def full_name(self):
        return ".".join("".join(words) for words in [*(words for _, *words in self.scopes), self.name])


@dataclass(frozen=True)
class Capture:
    header: tuple
    timescale: tuple  # a number and a unit, or nothing
    skipped: int
    end: int
    signals: tuple
    declared: tuple  # the variables of the file, skipped ones, too, each with its code
    is_cut: bool = False


def filler(letter):
    """What a value is extended with on the left, if this is its leftmost letter."""
    return "0" if letter == "1" else letter


def extended(letters, width):
    value = "".join(VALUE_OF[letter] for letter in letters)
    return value.rjust(width, filler(value[0]))


# Reading


class Words:
    """The words of a file; `line` is the line of the last one that was taken."""

    def __init__(self, text):
        lines = text.split("\n")
        self.left = [(word, line) for line, words in enumerate(lines, 1) for word in re.findall(WORD, words)]
        self.last_line = len(lines)

    def take(self):
        if not self.left:
            raise Fault("Truncated", self.last_line)
        word, self.line = self.left.pop(0)
        return word

    def want(self, holds, fault):
        if not holds:
            raise Fault(fault, self.line)

    def take_part(self, fault):
        word = self.take()
        self.want(word != "$end", fault)
        return word

    def take_end(self):
        self.want(self.take() == "$end", "UnexpectedWord")

    def take_up_to_end(self):
        return tuple(iter(self.take, "$end"))


class Reader:
    def __init__(self, text):
        self.words = Words(text)
        self.header, self.timescale, self.scopes, self.skipped = [], (), [], 0
        self.declared, self.kept = [], []  # all variables, and the kept ones, each with its code
        self.width_of = {}  # of each code, or None if its variables are skipped
        self.time, self.changes = 0, {}  # by code and time

    def read(self):
        while (word := self.words.take()) != "$enddefinitions":
            self.declaration(word)
        self.words.take_end()
        while self.words.left:
            self.change(self.words.take())

    def capture(self):
        self.read()
        signals = [replace(signal, values=self.values(signal.width, code)) for signal, code in self.kept]
        return Capture(tuple(self.header), self.timescale, self.skipped, self.time, tuple(signals), self.declared)

    def declaration(self, word):
        words = self.words
        if word in ("$date", "$version", "$comment"):
            self.header.append((word, *words.take_up_to_end(), "$end"))
        elif word == "$timescale":
            found = re.fullmatch("(1|10|100)(s|ms|us|ns|ps|fs)", "".join(words.take_up_to_end()))
            words.want(found, "BadTimescale")
            self.timescale = found.groups()
        elif word == "$scope":
            self.scopes.append((words.take_part("BadScope"), *words.take_up_to_end()))
        elif word == "$upscope":
            words.want(self.scopes, "UpscopeAtTop")
            words.take_end()
            self.scopes.pop()
        elif word == "$var":
            self.variable()
        else:
            words.want(word.startswith("$") and word not in DUMP_WORDS, "UnexpectedWord")
            words.take_up_to_end()

    def variable(self):
        words = self.words
        kind, size = words.take_part("BadVar"), words.take_part("BadVar")
        words.want(re.fullmatch("[0-9]+", size), "BadVar")
        code, name = words.take_part("BadVar"), (words.take_part("BadVar"), *words.take_up_to_end())
        width = int(size) if is_kept(kind, size) else None
        words.want(self.width_of.setdefault(code, width) == width, "MixedCode")
        signal = Signal(kind, width, name, tuple(self.scopes), origin=len(self.kept) if width else None)
        self.declared.append((signal, code))
        if width:
            words.want(len(self.kept) < MOST_SIGNALS, "TooManySignals")
            self.kept.append((signal, code))
        else:
            self.skipped += 1

    def change(self, word):
        words, line = self.words, self.words.line
        if word.startswith("#"):
            words.want(re.fullmatch("#[0-9]+", word) and int(word[1:]) <= LATEST, "BadTime")
            words.want(int(word[1:]) >= self.time, "TimeBackwards")
            self.time = int(word[1:])
        elif word.startswith("$"):
            words.want(word not in NO_CHANGES, "UnexpectedWord")
            if word not in DUMP_WORDS:
                words.take_up_to_end()
        elif word[0] in VALUE_OF:
            words.want(word[1:], "BadChange")
            self.value(word[0], word[1:])
        else:
            words.want(word[0] in "bBrRsS", "BadChange")
            code, words.line = words.take(), line
            self.value(word[1:] if word[0] in "bB" else None, code)

    def value(self, digits, code):
        """A change of a code to these digits, or to a real or a string, which are None."""
        self.words.want(code in self.width_of, "UnknownCode")
        width = self.width_of[code]
        if width is None or digits is None:
            return
        self.words.want(digits and all(letter in VALUE_OF for letter in digits), "BadChange")
        self.words.want(len(digits) <= width, "ValueTooLong")
        self.changes[code, self.time] = extended(digits, width)

    def values(self, width, code):
        values = ["x" * width]
        for tick in range(self.time + 1):
            values.append(self.changes.get((code, tick), values[-1]))
        return tuple(values[1:])


# Writing


def written(capture):
    lines, signals = list(capture.header), list(zip(capture.signals, codes()))
    if capture.timescale:
        lines.append(("$timescale", *capture.timescale, "$end"))
    opened = ()
    for signal, code in signals:
        lines += between_scopes(opened, signal.scopes)
        lines.append(("$var", signal.kind, str(signal.width), code, *signal.name, "$end"))
        opened = signal.scopes
    lines += [*between_scopes(opened, ()), ("$enddefinitions", "$end"), ("#0",), ("$dumpvars",)]
    lines += [shortest(signal.values[0], code) for signal, code in signals]
    lines.append(("$end",))
    for tick in range(1, capture.end + 1):
        changes = [shortest(signal.values[tick], code) for signal, code in signals
                   if signal.values[tick] != signal.values[tick - 1]]
        if changes or tick == capture.end:
            lines += [(f"#{tick}",), *changes]
    return "".join(" ".join(words) + "\n" for words in lines)


def codes():
    for length in itertools.count(1):
        for letters in itertools.product(map(chr, range(ord("!"), ord("~") + 1)), repeat=length):
            yield "".join(reversed(letters))


def between_scopes(opened, wanted):
    shared = len(list(itertools.takewhile(lambda pair: pair[0] == pair[1], zip(opened, wanted))))
    return [("$upscope", "$end")] * (len(opened) - shared) + [("$scope", *scope, "$end") for scope in wanted[shared:]]


def shortest(value, code):
    digits = value
    while len(digits) > 1 and digits[0] == filler(digits[1]):
        digits = digits[1:]
    return (value + code,) if len(value) == 1 else ("b" + digits, code)


# Edits: each gives the capture that it makes


def with_signal(capture, position, **parts):
    signals = list(capture.signals)
    signals[position] = replace(signals[position], **parts)
    return replace(capture, signals=tuple(signals))


def want_free_name(capture, position):
    """That the signal at a position has a word for a name, and no other signal has its full name."""
    names = [signal.full_name() for signal in capture.signals]
    want(capture.signals[position].name[0] != "$end", "BadWord")
    want(names.count(names[position]) == 1, "NameTaken")


def rename(capture, position, word):
    made = with_signal(capture, position, name=(word, *capture.signals[position].name[1:]))
    want_free_name(made, position)
    return made


def remove(capture, position):
    return replace(capture, signals=capture.signals[:position] + capture.signals[position + 1:])


def invert(capture, position):
    values = ["".join(map(negated, value)) for value in capture.signals[position].values]
    return with_signal(capture, position, values=tuple(values))


def shift(capture, position, by):
    values, gap = capture.signals[position].values, "x" * capture.signals[position].width
    moved = [values[min(tick - by, capture.end)] if tick >= by else gap for tick in range(capture.end + 1)]
    return with_signal(capture, position, values=tuple(moved))


def cut(capture, start, stop):
    want(start < stop <= capture.end, "BadRange")
    signals = [replace(signal, values=signal.values[:start] + signal.values[stop:]) for signal in capture.signals]
    return replace(capture, signals=tuple(signals), end=capture.end - (stop - start), is_cut=True)


def deglitch(capture, position, ticks):
    want(ticks >= 1, "BadCount")
    runs = [list(run) for _, run in itertools.groupby(capture.signals[position].values)]
    values = runs[0]
    for run in runs[1:-1]:
        values = values + (run if len(run) >= ticks else values[-1:] * len(run))
    return with_signal(capture, position, values=tuple(values + (runs[-1] if runs[1:] else [])))


def force(capture, position, start, stop, value):
    want(start < stop <= capture.end + 1, "BadRange")
    values = capture.signals[position].values
    return with_signal(capture, position, values=values[:start] + (value,) * (stop - start) + values[stop:])


def derive(capture, word, rule, first, second=None):
    signal = capture.signals[first]
    if rule == "bit":
        want(second < signal.width, "BadBit")
        values = [value[-1 - second] for value in signal.values]
    else:
        operands = [capture.signals[position] for position in (first, second) if position is not None]
        want(all(operand.width == 1 for operand in operands), "NotScalar")
        values = map(OPERATORS[rule], *(operand.values for operand in operands))
    made = replace(capture, signals=(*capture.signals, Signal("wire", 1, (word,), signal.scopes, tuple(values))))
    want_free_name(made, -1)
    want(len(made.signals) <= MOST_SIGNALS, "TooManySignals")
    return made


def of_bits(operator):
    """The operator on letters: what it gives for all bits that x and z may stand for, if that is one bit; else x."""
    @functools.cache
    def of_letters(*letters):
        bits = itertools.product(*((0, 1) if letter in "xz" else (int(letter),) for letter in letters))
        results = {operator(*some) for some in bits}
        return str(*results) if len(results) == 1 else "x"
    return of_letters


negated = of_bits(lambda a: 1 - a)
OPERATORS = {"not": negated, "and": of_bits(lambda a, b: a & b), "or": of_bits(lambda a, b: a | b),
             "xor": of_bits(lambda a, b: a ^ b)}


# Decoders: each gives two ticks and what was found, tick by tick


def falls(line, tick):
    return line[tick - 1] == "1" and line[tick] == "0"


def rises(line, tick):
    return line[tick - 1] == "0" and line[tick] == "1"


def uart(line, bit, data, parity, stop):
    tick, end = 1, len(line) - 1
    while tick <= end:
        samples = [tick + (2 * place + 1) * bit[0] // (2 * bit[1])
                   for place in range(1 + data + (parity != "none") + stop)]
        if not falls(line, tick) or samples[0] <= end and line[samples[0]] != "0":
            tick += 1
        elif samples[-1] > end:
            yield tick, end, "partial"
            break
        else:
            yield tick, samples[-1], uart_frame("".join(line[sample] for sample in samples[1:]), data, parity)
            tick = samples[-1] + 1


def uart_frame(letters, data, parity):
    """What a frame is, by its samples after the start bit."""
    has_parity = parity != "none"
    if set(letters) & set("xz"):
        return "unknown"
    if "0" in letters[data + has_parity:]:
        return "frame-error"
    byte = f"0x{int(letters[:data][::-1], 2):0{3 if data == 9 else 2}x}"
    is_odd = letters[:data + 1].count("1") % 2 == 1
    return f"parity-error {byte}" if has_parity and is_odd != (parity == "odd") else f"byte {byte}"


def spi(clock, mosi, miso, select, mode, bits, order):
    edge, samples = rises if mode in (0, 3) else falls, []
    for tick in range(1, len(clock)):
        if select and select[tick] != "0":
            yield from spi_rest(samples)
            samples = []
        elif edge(clock, tick):
            samples.append(tick)
            if len(samples) == bits:
                data = [f" {name} {spi_data(line, samples, order)}" for name, line in (("mosi", mosi), ("miso", miso))
                        if line]
                yield samples[0], tick, "word" + "".join(data)
                samples = []
    yield from spi_rest(samples)


def spi_rest(samples):
    if samples:
        yield samples[0], samples[-1], f"partial {len(samples)}"


def spi_data(line, samples, order):
    letters = "".join(line[tick] for tick in (samples if order == "msb" else reversed(samples)))
    return "?" if set(letters) & set("xz") else f"0x{int(letters, 2):0{(len(letters) + 3) // 4}x}"


def i2c(clock, data):
    scl, sda = ("".join(line).replace("z", "1") for line in (clock, data))
    is_started, read_before = False, None  # the address of ten bits that the bytes before a repeated START had
    for tick in range(1, len(scl)):
        if is_started and rises(scl, tick):
            bits.append((tick, sda[tick]))
            if len(bits) == 9:
                bytes_so_far.append("".join(level for _, level in bits[:8]))
                yield bits[0][0], bits[7][0], i2c_byte(bytes_so_far, read_before)
                yield tick, tick, {"0": "ack", "1": "nack", "x": "unknown"}[sda[tick]]
                bits = []
        if scl[tick - 1] == scl[tick] == "1" and (falls(sda, tick) or rises(sda, tick)):
            if is_started and len(bits) >= 2:
                yield bits[0][0], bits[-1][0], f"partial {len(bits)}"
            read_before = address_of_ten_bits(bytes_so_far, read_before) if is_started else None
            yield tick, tick, "stop" if rises(sda, tick) else "repeated-start" if is_started else "start"
            is_started, bits, bytes_so_far = falls(sda, tick), [], []


def address_of_ten_bits(bytes_so_far, read_before):
    """The address of ten bits that bytes after a START have, or None. `read_before` is that of the bytes before."""
    if re.match("11110[01]{2}0", bytes_so_far[0] if bytes_so_far else ""):
        whole = bytes_so_far[0][5:7] + "".join(bytes_so_far[1:2])
        return int(whole, 2) if re.fullmatch("[01]{10}", whole) else None
    if bytes_so_far and read_before is not None and bytes_so_far[0] == f"11110{read_before >> 8:02b}1":
        return read_before
    return None


def i2c_byte(bytes_so_far, read_before):
    """What the last of some bytes after a START is."""
    levels, first, address = bytes_so_far[-1], bytes_so_far[0], address_of_ten_bits(bytes_so_far, read_before)
    if "x" in levels:
        return "unknown"
    direction = "read" if first[7] == "1" else "write"
    if address is not None and len(bytes_so_far) == (1 if direction == "read" else 2):
        return f"address 0x{address:03x} {direction}"
    if len(bytes_so_far) > 1:
        return f"data 0x{int(levels, 2):02x}"
    if levels.startswith("11110"):
        return f"address-high 0x{int(levels[5:7], 2):x} {direction}"
    return f"address 0x{int(levels[:7], 2):02x} {direction}"


# The script


def number(word):
    want(re.fullmatch("[0-9]+", word) and int(word) < 2**64, "BadNumber")
    return int(word)


def distance(word):
    want(re.fullmatch("[+-]?[0-9]+", word) and -2**63 <= int(word) < 2**63, "BadNumber")
    return int(word)


def ratio(word):
    numerator, slash, denominator = word.partition("/")
    return number(numerator), number(denominator) if slash else 1


def one_of(*words):
    def chosen(word):
        want(word in words, "BadOption")
        return word
    return chosen


class Session:
    """A capture, and those that can be taken back or made again."""

    def __init__(self, capture, depth):
        self.first, self.capture, self.depth, self.to_undo, self.to_redo = capture, capture, depth, [], []

    def reply(self, words):
        """Carries out a line, and gives the lines of its reply. What its words mean is kept, and at which positions the
        signals are that it names."""
        (command, *operands), self.operands, self.meant = words, None, []
        want(command in COMMANDS, "UnknownCommand")
        carry_out, readers = COMMANDS[command]
        if command == "derive":
            readers = self.readers_of_derive(operands)
        want(len(operands) == len(readers), "WrongCount")
        self.operands = [reader(word) if callable(reader) else self.position(word, reader)
                         for reader, word in zip(readers, operands)]
        return carry_out(self, *self.operands)

    def readers_of_derive(self, operands):
        want(len(operands) >= 2, "WrongCount")
        rule = one_of("not", "and", "or", "xor", "bit")(operands[1])
        return [str, str, *{"not": ["NAME"], "bit": ["NAME", number]}.get(rule, ["NAME", "NAME"])]

    def position(self, name, reader):
        if reader == "NAME or -" and name == "-":
            return None
        if re.fullmatch("@[0-9]+", name) and int(name[1:]) < len(self.capture.signals):
            self.meant.append(int(name[1:]))
        else:
            names = [signal.full_name() for signal in self.capture.signals]
            want(name in names, "NoSuchName")
            self.meant.append(names.index(name))
        return self.meant[-1]

    def list(self):
        return [f"timescale {' '.join(self.capture.timescale) or 'none'}", f"end {self.capture.end}",
                f"signals {len(self.capture.signals)}", f"skipped {self.capture.skipped}",
                *[f"@{position} {signal.width} {signal.kind} {signal.full_name()}"
                  for position, signal in enumerate(self.capture.signals)]]

    def value(self, position, tick):
        return [self.capture.signals[position].values[min(tick, self.capture.end)]]

    def changes(self, position):
        signal = self.capture.signals[position]
        before = ("x" * signal.width, *signal.values)
        return [f"{tick} {value}" for tick, value in enumerate(signal.values) if value != before[tick]]

    def edit(self, effect, *operands):
        made = effect(self.capture, *operands)
        self.to_undo, self.to_redo = [*self.to_undo, self.capture][-self.depth:], []
        self.capture = made
        return ["ok"]

    def force(self, position, start, stop, letters):
        width = self.capture.signals[position].width
        want(len(letters) <= width and all(letter in VALUE_OF for letter in letters), "BadValueText")
        return self.edit(force, position, start, stop, extended(letters, width))

    def undo(self):
        want(self.to_undo, "NothingToUndo")
        self.to_redo.append(self.capture)
        self.capture = self.to_undo.pop()
        return ["ok"]

    def redo(self):
        want(self.to_redo, "NothingToRedo")
        self.to_undo.append(self.capture)
        self.capture = self.to_redo.pop()
        return ["ok"]

    def set_depth(self, depth):
        want(1 <= depth <= DEEPEST, "BadDepth")
        want(len(self.to_redo) <= depth, "DepthTooSmall")
        self.depth = depth
        while len(self.to_undo) + len(self.to_redo) > depth:
            self.to_undo.pop(0)
        return ["ok"]

    def lines(self, *positions):
        signals = [None if position is None else self.capture.signals[position] for position in positions]
        want(all(signal.width == 1 for signal in signals if signal), "NotScalar")
        return [signal and signal.values for signal in signals]

    def uart(self, position, bit, data, parity, stop):
        [line] = self.lines(position)
        want(all(1 <= part <= 10**9 for part in bit), "BadRatio")
        want(bit[0] >= 2 * bit[1], "BitTooShort")
        want(5 <= data <= 9, "BadData")
        want(1 <= stop <= 2, "BadStop")
        return found_by("uart", uart(line, bit, data, parity, stop))

    def spi(self, clock, mosi, miso, select, mode, bits, order):
        lines = self.lines(clock, mosi, miso, select)
        want(mode <= 3, "BadMode")
        want(1 <= bits <= 32, "BadBits")
        return found_by("spi", spi(*lines, mode, bits, order))

    def i2c(self, clock, data):
        return found_by("i2c", i2c(*self.lines(clock, data)))


def found_by(decoder, found):
    return [f"{first}-{last} {decoder} {what}" for first, last, what in found]


def editing(effect):
    return lambda session, *operands: session.edit(effect, *operands)


COMMANDS = {
    "list": (Session.list, []),
    "value": (Session.value, ["NAME", number]),
    "changes": (Session.changes, ["NAME"]),
    "rename": (editing(rename), ["NAME", str]),
    "remove": (editing(remove), ["NAME"]),
    "invert": (editing(invert), ["NAME"]),
    "shift": (editing(shift), ["NAME", distance]),
    "cut": (editing(cut), [number, number]),
    "deglitch": (editing(deglitch), ["NAME", number]),
    "force": (Session.force, ["NAME", number, number, str]),
    "derive": (editing(derive), None),
    "undo": (Session.undo, []),
    "redo": (Session.redo, []),
    "depth": (Session.set_depth, [number]),
    "uart": (Session.uart, ["NAME", ratio, number, one_of("none", "even", "odd"), number]),
    "spi": (Session.spi, ["NAME", "NAME or -", "NAME or -", "NAME or -", number, number, one_of("msb", "lsb")]),
    "i2c": (Session.i2c, ["NAME", "NAME"]),
}


def carry_out(capture, script, depth, watch=lambda *line: None):
    """(session or None, status, replies, errors) of a script on a capture, all as bytes. `watch` is given the number of
    each line, its words, the capture before it, the session after it, and the refusal or None."""
    try:
        session = Session(Reader(capture.decode("latin-1")).capture(), depth)
    except Fault as fault:
        name, line = fault.args
        return None, 3, b"", f"vcdedit: capture line {line}: {name}\n".encode()
    status, replies = 0, []
    for place, line in enumerate(script.decode("latin-1").split("\n"), 1):
        words, before, refusal = re.findall(WORD, line), session.capture, None
        if not words or words[0].startswith("#"):
            continue
        try:
            replies += session.reply(words)
        except Refused as refused:
            status, refusal = 1, str(refused)
            replies.append(f"line {place}: refused: {refused}")
        watch(place, words, before, session, refusal)
    return session, status, "".join(line + "\n" for line in replies).encode("latin-1"), b""


def run(capture, script=b"list", depth=100):
    """(status, replies, errors, written file or None) of a script on a capture, all as bytes."""
    session, *ending = carry_out(capture, script, depth)
    return *ending, session and written(session.capture).encode("latin-1")
