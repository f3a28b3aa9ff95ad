"""Random captures: small and dense, with many aliases, x and z, frames of UART, SPI and I2C, and files with a fault."""

import random

from model import LATEST, WIDEST

KINDS = ["wire", "wire", "wire", "reg", "integer", "logic", "parameter", "Real"]
SKIPPED_KINDS = ["real", "realtime", "real_parameter", "shortreal", "event", "string"]
WIDTHS = [*[1] * 12, *[2] * 4, 3, 3, 4, 8, 63, 64, 65, 128, 129, WIDEST]
TOO_WIDE = str(WIDEST + 1)
SKIPPED_SIZES = ["0", "00", TOO_WIDE, "99999999999999999999999"]
CODES = ["!", '"', "#", "$x", "ab", "!!", "~z9", "%%%%", "b0", "1", "a", "A", "\xe9"]
NAMES = ["a", "b", "clk", "Clk", "data", "a.b", "q[1:0]", "\xe9", "\xc3\xa9\x1b", "$x"]
RANGES = [[], [], [], ["[3:0]"], ["[0]"], ["[1]", "[7:0]"], ["[", "3:0", "]"]]
SCOPES = [["top"], ["top"], ["sub"], ["u"], [], ["of", "two"]]
LETTERS = {"0": "0lL", "1": "1hH", "x": "xXuUwW-", "z": "zZ"}
# Words that belong elsewhere, or nowhere.
WRONG = [TOO_WIDE, "#%d" % (LATEST + 1), "\xe9", *"""$end $var $scope $upscope $enddefinitions $timescale $comment $date
    $version $dumpvars $dumpall $dumpoff $dumpon $dumpports $attrbegin $ # #0 #5 #007 #1.5 #-1 #+1 #18446744073709551617
    b B b1 B01 bz b2 b1x0z1x0z1 bU r1.5 r R s sx S- 1 0 x z - 1! x! zz 1ab ! 2 p pD b1! wire real shortreal string 8 00
    01 +1 1.0 1ns ns 10 100 us 1000 [3:0] foo""".split()]
HARMLESS = [word for word in WRONG if word != "$end"]
# White space between items, and within one.
LAYOUTS = [("\n", " ")] * 4 + [(" ", " "), ("\r\n", "\t"), ("\n\n", "\n"), ("\v", "\f\n")]


class Chance(random.Random):
    """Random choices for captures and scripts."""

    def often(self, share):
        return self.random() < share

    def some(self, choices, most):
        return [self.choice(choices) for _ in range(self.randint(0, most))]

    def tick(self, end):
        return self.choice([self.randint(0, end + 2), self.randint(0, 12), end, end + 1])


# Waves: of each tick at which something is written, the value of as many letters as the wave has bits


def noise(chance, width, end):
    """A wave that changes by chance, now and then to what it was."""
    ticks = sorted(chance.sample(range(end + 1), min(end + 1, chance.choice([0, 1, 3, 8, 20]))))
    letters = chance.choice(["01", "01", "0011xz", "01xz", "xz"])
    return {tick: chance.choice(letters[:2]) * width if chance.often(0.2) else
            "".join(chance.choice(letters) for _ in range(width)) for tick in ticks}


def spoilt_wave(chance, wave, end):
    """The same with a few ticks of another value."""
    for _ in range(chance.choice([0, 0, 0, 1, 2, 6])):
        tick = chance.randint(0, end)
        after = wave.get(tick + 1, next((wave[before] for before in range(tick, -1, -1) if before in wave), "x"))
        wave |= {tick: chance.choice("xz01"), tick + 1: after}
    return {tick: value for tick, value in wave.items() if tick <= end}


def uart_wave(chance, end, setup):
    """Frames of this setup, some with a wrong bit, and now and then chatter, or idle line, before them."""
    (ticks, bits), data, parity, stop = setup
    frame = (2 * (data + (parity != "none") + stop) + 1) * ticks // (2 * bits) + 1  # its ticks up to the last sample
    wave, tick = {0: chance.choice("1111z0")}, chance.choice([*range(1, 6), frame - 1, frame])
    while tick <= end:
        if chance.often(0.2):
            wave |= {tick + place: chance.choice("01") for place in range(ticks // bits)}
            tick += chance.choice([ticks // bits, chance.randint(1, 3)])
        letters = [chance.choice("01") for _ in range(data)]
        is_odd = letters.count("1") % 2 == 1
        if parity != "none":
            letters.append("1" if is_odd != (parity == "odd") != chance.often(0.2) else "0")
        letters = ["0", *letters, *(chance.choice("111110") for _ in range(stop)), "1"]
        wave |= {tick + place * ticks // bits: letter for place, letter in enumerate(letters)}
        tick += len(letters) * ticks // bits - chance.choice([0, 0, 1]) + chance.choice([0, 1, 2, 7])
    return spoilt_wave(chance, wave, end)


def spi_waves(chance, end):
    """The clock, two lines of data, and a select."""
    step, clock = chance.choice([1, 2, 2, 3]), {}
    for place, tick in enumerate(range(0, end + 1, step)):
        clock[tick] = "01"[place % 2]
    lines = [{tick: chance.choice("01") for tick in range(end + 1) if chance.often(0.3)} for _ in range(2)]
    select, tick = {0: chance.choice("0001")}, 0
    while tick < end:
        tick += chance.randint(1, 25)
        select[tick] = chance.choice("00011xz")
    return [spoilt_wave(chance, wave, end) for wave in (clock, *lines, select)]


class Bus:
    """Two lines of I2C, moved by one tick a step."""

    def __init__(self, chance, end):
        self.chance, self.end, self.tick = chance, end, 0
        self.high, self.is_tight = chance.choice(["1", "1", "z", "1z"]), chance.often(0.75)
        self.scl, self.sda, self.high_bits = {0: "1"}, {0: "1"}, chance.choice(["00", "01", "10", "11"])
        if chance.often(0.2):
            self.bits(chance.some("01", 12))
        while self.tick < end:
            self.message()

    def message(self):
        """A START or a repeated one, bytes after it, and now and then a rest or a STOP."""
        chance = self.chance
        self.condition("0")
        if chance.often(0.2):
            self.high_bits = chance.choice(["00", "01", "10", "11"])
        first = chance.random()
        if first < 0.65:
            is_write = chance.often(0.5)
            self.byte("11110" + self.high_bits + ("0" if is_write else "1"))
            self.bytes(chance.choice([1, 1, 1, 2]) if is_write else chance.choice([0, 0, 1]))
        elif first < 0.8:
            self.bytes(chance.choice([1, 1, 2]))
        if chance.often(0.25):
            self.bits(chance.some("01", 8))
        if chance.often(0.25):
            self.condition("1")
            self.bits(chance.some("01", 2))

    def step(self, line, level):
        line[self.tick] = self.chance.choice(self.high) if level == "1" else level
        self.tick += 1 if self.is_tight else self.chance.choice([1, 1, 2])

    def bits(self, levels):
        for level in levels:
            self.scl[self.tick] = "0"
            self.tick += not self.is_tight
            self.step(self.sda, level)
            self.step(self.scl, "1")

    def byte(self, levels):
        self.bits(levels)
        if self.chance.often(0.95):
            self.bits(self.chance.choice("0001"))

    def bytes(self, count):
        for _ in range(count):
            self.byte([self.chance.choice("01") for _ in range(8)])

    def condition(self, level):
        """SDA goes to this level while SCL is high, most often."""
        if self.tick:
            self.bits("1" if level == "0" else "0")
        self.step(self.sda, level)

    def waves(self):
        return [spoilt_wave(self.chance, wave, self.end) for wave in (self.scl, self.sda)]


class Net:
    """What has one code: a wave, or a variable that is skipped."""

    def __init__(self, chance, code, wave=None, width=None, end=0):
        self.code, self.is_kept = code, wave is not None or chance.often(0.75)
        self.width = width or (chance.choice(WIDTHS) if self.is_kept else 1)
        self.wave = noise(chance, self.width, end) if wave is None else wave


class Capture:
    """A capture that is accepted: its text, its end, and of each signal its full name and its width."""

    def __init__(self, chance, farthest=0.05, most=8):
        """`farthest` is the share of those that end at the last tick there is. There are at most so many variables, and
        one more if one is put in as a fault."""
        self.chance, self.end, self.signals, self.most = chance, chance.choice([0, 3, 10, 40, 40, 150]), [], most
        self.names = []  # of skipped variables
        codes, self.protocol = chance.sample(CODES, 6), chance.choice(["", "", "uart", "spi", "i2c"])
        if self.protocol:
            self.end = chance.randint(60, 500 if self.protocol == "i2c" else 300)
        self.uart = (chance.choice([(2, 1), (3, 1), (4, 1), (5, 2), (7, 3), (10, 4), (10, 1)]), chance.randint(5, 9),
                     chance.choice(["none", "none", "even", "odd"]), chance.choice([1, 1, 2]))
        waves = {"uart": lambda: [uart_wave(chance, self.end, self.uart)], "spi": lambda: spi_waves(chance, self.end),
                 "i2c": lambda: Bus(chance, self.end).waves(), "": list}[self.protocol]()
        self.nets = [Net(chance, codes.pop(), wave, 1) for wave in waves]
        others = chance.choice([0 if self.protocol else 1, 1, 2, len(codes)] if chance.often(0.97) else [0])
        self.nets += [Net(chance, code, end=self.end) for code in codes[:others]]
        self.items = [*self.declarations(), "$enddefinitions $end".split(), *self.changes()]
        if chance.often(farthest):
            self.end = LATEST
            self.items.append(["#%d" % self.end])
        self.text = self.laid_out()

    def laid_out(self):
        """The items as a text, in one of the layouts."""
        between, within = self.chance.choice(LAYOUTS)
        return between.join(within.join(item) for item in self.items) + self.chance.choice(["", between])

    # Declarations

    def declarations(self):
        chance, opened = self.chance, []
        yield from self.extras(0.4)
        others = chance.some(self.nets, chance.choice([5] * 39 + [300])) if self.nets else []
        for net in [*self.nets, *others][:self.most]:
            for _ in range(chance.choice([0, 0, 0, 1, 1, len(opened)])):
                if opened:
                    opened.pop()
                    yield ["$upscope", "$end"]
            for _ in range(chance.choice([0, 0, 1, 1, 2]) if len(opened) < 4 else 0):
                opened.append(chance.choice(SCOPES))
                yield ["$scope", chance.choice(["module", "module", "task"]), *opened[-1], "$end"]
            yield self.variable(net, opened)
            yield from self.extras(0.05)
        yield from [["$upscope", "$end"]] * chance.choice([0, len(opened), len(opened)])

    def variable(self, net, opened):
        chance = self.chance
        name = [chance.choice(NAMES + ["n%d" % len(self.signals)] * 3), *chance.choice(RANGES)]
        self.name = name = self.name if self.signals and chance.often(0.15) else name
        kind, size = chance.choice(KINDS), chance.choice(["", "", "", "0"]) + str(net.width)
        full_name = ".".join("".join(words) for words in [*opened, name])
        if net.is_kept:
            self.signals.append((full_name, net.width))
        elif chance.often(0.7):
            kind = chance.choice(SKIPPED_KINDS + ["event"] * 3)
        else:
            size = chance.choice(SKIPPED_SIZES)
        self.names += [] if net.is_kept else [full_name]
        return ["$var", kind, size, net.code, *name, "$end"]

    def extras(self, share):
        """Header entries, timescales and commands that are passed over."""
        chance = self.chance
        while chance.often(share):
            size, unit = chance.choice(["1", "10", "100"]), chance.choice(["s", "ms", "us", "ns", "ps", "fs"])
            yield chance.choice([["$timescale", size + unit, "$end"], ["$timescale", size, unit, "$end"],
                                 ["$timescale", *size, *unit, "$end"],
                                 [chance.choice(["$comment", "$date", "$version"]), *chance.some(HARMLESS, 3), "$end"],
                                 [chance.choice(["$attrbegin", "$x", "$"]), *chance.some(HARMLESS, 2), "$end"]])

    # Changes

    def changes(self):
        chance = self.chance
        ticks = {tick for net in self.nets for tick in net.wave} | {self.end} | ({0} if chance.often(0.7) else set())
        for tick in sorted(ticks):
            if tick or chance.often(0.8):
                yield [chance.choice(["#%d"] * 9 + ["#00%d"]) % tick]
            nets = [net for net in self.nets if tick in net.wave]
            for net in chance.sample(nets, len(nets)):
                if chance.often(0.03):
                    yield self.change(net, chance.choice("01xz") * net.width)
                    yield from [["#%d" % tick]] * chance.randint(0, 1)
                yield self.change(net, net.wave[tick])
            yield from self.among_changes()

    def change(self, net, value):
        chance = self.chance
        if not net.is_kept:
            words = [["r1.5", net.code], ["sx", net.code], ["b12", net.code], ["bfoo", net.code], ["1" + net.code]]
            return chance.choice(words)
        digits = value
        while len(digits) > 1 and digits[0] == ("0" if digits[1] == "1" else digits[1]) and chance.often(0.9):
            digits = digits[1:]
        if chance.often(0.2):
            digits = "".join(chance.choice(LETTERS[digit]) for digit in digits)
        if len(digits) == 1 and chance.often(0.9):
            return [digits + net.code]
        return [chance.choice("bbbB") + digits, net.code]

    def among_changes(self):
        chance = self.chance
        if self.nets and chance.often(0.02):
            yield [chance.choice(["r1.5", "R", "sx", "S-"]), chance.choice(self.nets).code]
        if chance.often(0.05):
            yield [chance.choice(["$dumpvars", "$dumpall", "$dumpon", "$dumpoff", "$end"])]
        if chance.often(0.02):
            yield [chance.choice(["$comment", "$date", "$version", "$x"]), *chance.some(HARMLESS, 3), "$end"]

    # Faults

    def broken(self):
        """The text with something wrong: an item, a word or a byte; or cut off. It may still be accepted."""
        chance, self.items = self.chance, [list(item) for item in self.items]
        what = chance.random()
        if what < 0.2:
            return self.text[:chance.randint(0, len(self.text))]
        if what < 0.3:
            place = chance.randrange(len(self.text))
            return self.text[:place] + chance.choice('\0 \n$#b01xz!"\xff@9') + self.text[place + 1:]
        declared = self.items.index(["$enddefinitions", "$end"]) + 1
        place = chance.randrange(declared if chance.often(0.6) else len(self.items))
        if what < 0.45:
            item = self.items[place] if chance.often(0.3) else self.items.pop(place)
            if chance.often(0.7):
                self.items.insert(chance.randint(0, len(self.items)), item)
        elif what < 0.8 and self.nets:
            item = self.faulty_item(chance.choice(self.nets))
            is_early = item[0].startswith("$") and chance.often(0.8)
            first, last = (0, declared - 1) if is_early else (declared, len(self.items))
            self.items.insert(chance.randint(first, last), item)
        else:
            item = self.items[place]
            at = chance.randrange(len(item))
            item[at:at + chance.choice([0, 1, 1])] = chance.some(WRONG, 2)
        return self.laid_out()

    def faulty_item(self, net):
        """An item that is a fault where it comes too early, or of this net."""
        chance, size = self.chance, self.chance.choice([str(net.width)] * 2 + ["0", "1", "2", TOO_WIDE])
        variable = ["$var", chance.choice(KINDS + SKIPPED_KINDS), size, net.code]
        digits = "".join(chance.choice("01xz2" if chance.often(0.2) else "01xz") for _ in range(net.width + 1))
        return chance.choice([
            *[[*variable, "a", "$end"]] * 4, [*variable[:chance.randint(1, 4)], "$end"],
            ["$var", chance.choice(["wire", "real"]), chance.choice(["-1", "x", "1.0", "+8"]), net.code, "a", "$end"],
            ["$scope", "$end"], ["$scope", "$end"], ["$upscope", "$end"], ["$upscope", "x"],
            ["$timescale", *chance.some(WRONG, 2), "$end"], ["#%d" % chance.randint(0, self.end)],
            *[["b" + digits, net.code]] * 3, ["B" + digits[:-2], net.code],
            [chance.choice(["b", "b2", "r1", "s", "0"]), chance.choice(["none", net.code])]])
