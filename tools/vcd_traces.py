"""What a new capture still shows of variables that it has no more, and of signals that were forced."""

import collections
import math
import mmap
import re

from vcd_files import changes_in, counted, declared_in, shown, words_of
from vcd_messages import name_of, short

# A command with words of people, the parts of its names, and the code of a real number or of a string.
COMMAND = rb"\$(?<!\S\$)(?:scope|comment|date|version|attrbegin)\s.*?\s\$end(?!\S)"
WORDS = re.compile(rb"[^\s.,;:=()\[\]'\"]+").findall
REAL = rb"|(?<!\S)[rRsS]\S*\s+(%s)(?!\S)"
# After how many changes codes that have no copy are looked at no more, and how often a copy changes at least.
SLICE, LEAST = 1 << 14, 2


class Declared:
    """The names of a capture's variables by codes, and which ticks of another one it has."""

    def __init__(self, file):
        self.file, self.names, self.window = file, collections.defaultdict(list), (0, math.inf)
        for _, words, name in declared_in(file):
            if name is not None:
                self.names[words[2]].append(name)
            elif words[:2] == [b"vcdedit-amend:", b"ticks"]:
                self.window = int(words[2]), math.inf if words[4] == b"end" else int(words[4])
        self.all = {name for names in self.names.values() for name in names}


def copies_of(old, window, gone, kept):
    """(code that is gone, kept code) of those that change alike in a window, by a sum of 64 bits of their changes."""
    (first, last), values, sums = window, {}, dict.fromkeys([*gone, *kept], (0, 0))
    limit, now = SLICE, 0
    for number, (tick, code, value, letters) in enumerate(changes_in(words_of(old.file)) if gone and kept else ()):
        if tick > last:
            break
        if number > limit and tick > max(now, first):
            alike = {sums.get(one) for one in gone} & {sums.get(one) for one in kept}
            sums, limit = {one: found for one, found in sums.items() if found in alike}, number + SLICE
            if not sums:
                break
        now, value = tick, value or letters
        if code in sums and values.get(code) != value:
            values[code], (count, found) = value, sums[code]
            sums[code] = (count + 1, hash((found, tick, value))) if tick > first else (0, hash(value))
    changing = [one for one in gone if sums.get(one, (0,))[0] >= LEAST]
    return [(one, other) for one in changing for other in kept if sums.get(other) == sums[one]]


def forced_in(lines, listing):
    """The names of the signals that lines force over all ticks."""
    forces = (words for words in map(bytes.split, lines) if words[:1] == [b"force"] and len(words) == 5)
    return {name_of(name, listing.names) for _, name, first, after, _ in forces
            if not first.strip(b"0") and after.isdigit() and int(after) > listing.end}


def traces_of(source, file, forced, has_window):
    """Lines about what a new file shows of variables of its source that it has no more, where that was looked for, and
    about the real and string changes of signals that were forced over all ticks."""
    (old, new), gone, owns, reals = map(Declared, (source, file)), {}, collections.defaultdict(list), collections.Counter()
    # A name without its scopes and its range.
    own = lambda name: name.partition(b"[")[0].rpartition(b".")[2]
    listed, others = lambda names: shown(b", ".join(names)), {own(name) for name in new.all}
    for code, names in old.names.items():
        missing = [name for name in names if name not in new.all]
        # Each that was renamed has a new name.
        if len(missing) > sum(name not in old.all for name in new.names.get(code, [])):
            gone[code] = missing
            for name in missing:
                owns[own(name)].append(name)
    kept = [code for code in new.names if code in old.names and code not in gone]
    for one, other in copies_of(old, new.window if has_window else (0, math.inf), gone, kept):
        names = listed(gone[one]), listed(new.names[other])
        yield "removed, but another variable with the same changes stays: %s: %s" % names
    codes = [code for code, names in new.names.items() if not forced.isdisjoint(names)]
    with mmap.mmap(file.fileno(), 0, access=mmap.ACCESS_READ) as text:
        for found in re.finditer(COMMAND + REAL % b"|".join(map(re.escape, codes)) * bool(codes), text, re.S):
            if found.lastindex:
                reals[found[1]] += 1
                continue
            for line in found[0].splitlines():
                # A name of a kept variable, too, counts with its scopes.
                names = [name for word in owns.keys() & WORDS(line) for name in owns[word]
                         if word not in others or name.partition(b"[")[0] in line]
                if names:
                    yield "removed, but the name stays: %s: %s" % (listed(names), short(line))
    for code, count in reals.items():
        yield "forced, but %s: %s" % (counted(count, "real or string change%s stay"), listed(new.names[code]))
