"""What vcdedit's faults and refusals mean for a capture and a script at hand: the line itself, and what to do."""

import collections
import difflib
import functools
import itertools
import pathlib
import re
import subprocess

import vcd_files
from vcd_files import counted, program, shortened, shown

# Letters of a line that are shown, near names that are, and among how many they are sought by their spelling.
LONGEST, NAMES_SHOWN, SOUGHT = 100, 3, 10000

# A fault or a refusal, what it means, what to do, and what the line of a fault is that of.
Message = collections.namedtuple("Message", "kind name means remedy line")
MESSAGE = re.compile(r"^(fault|refusal) (\w+): (.*)\n    (.*)\n(?:    (.*)\n)?", flags=re.M)
HERE = pathlib.Path(__file__).resolve().parent
# In the repository it is among the documents, and where the tools are installed beside them.
PLACES = HERE / "messages.txt", HERE.parent / "docs/messages.txt"
TEXT = next(path for path in PLACES if path.exists()).read_text("utf-8")
MESSAGES = [Message(*found) for found in MESSAGE.findall(TEXT)]
# What each means, and on a further line what to do.
MEANINGS = {(one.kind, one.name): ("%s\n    %s" % (one.means, one.remedy)).replace("`", "") for one in MESSAGES}

# What is written in place of numbers, where they are refused.
NUMBERS = {"BadNumber": "[0-9.]+[munpf]?s", "BadValueText": "0x[0-9A-Fa-f]+"}
# The words of a command's usage that stand for a signal.
SIGNALS = {"NAME", "A", "B", "CLK", "MOSI", "MISO", "CS", "SCL", "SDA"}


def short(text):
    """A line as it can be shown on a terminal."""
    plain = vcd_files.escaped(shown(text.strip()))
    return plain if len(plain) <= LONGEST else plain[:LONGEST] + " .."


def told_end(errors, file):
    """Lines about a run on an open file that did not end well, by what it told. The reason may stand behind others."""
    lines = [re.sub("^vcdedit(-amend)?: ", "", line) for line in errors.splitlines()]
    *before, last = lines or ["vcdedit does not say why it ended"]
    reason = next((line for line in lines if line.startswith("error: ")), last)
    fault = re.fullmatch(r"capture line ([0-9]+): (\w+)", reason)
    if fault:
        others = [line.partition("capture: ")[2] for line in before if line.startswith("capture: ")]
        file.seek(0)
        line = short(next(itertools.islice(file, int(fault[1]) - 1, None), b""))
        return others or ["line %s: %s: %s" % (fault[1], line, fault[2]), MEANINGS.get(("fault", fault[2]), "")]
    if reason == "out of memory":
        before.append(MEANINGS["fault", "NoMemory"])
    return [reason, *before] if reason == last else [reason]


@functools.lru_cache(None)
def usages():
    """The usage of each command, as the program's help has it, with what the command does."""
    text = subprocess.run([program(), "--help"], stdout=subprocess.PIPE, encoding="utf-8").stdout
    rows = re.findall(r"^  ([a-z0-9]+(?: \S+)*)(?:  +(.*))?$", text.partition("\nLines of a script")[2], flags=re.M)
    return {row[0].split(" ")[0]: row for row in rows}


def signals_in(line):
    """The words of a line that stand for signals, each once."""
    words = line.split() or [b"#"]
    if words[0] == b"derive":
        return list(dict.fromkeys(words[3:4] if words[2:3] == [b"bit"] else words[3:]))
    places = usages().get(shown(words[0]), ("", ""))[0].split(" ")
    return list(dict.fromkeys(word for word, place in zip(words, places) if place in SIGNALS and word != b"-"))


def name_of(word, names):
    """The full name that a word of a line means, which may be a position."""
    position = re.fullmatch(rb"@0*([0-9]{1,9})", word)
    return names[int(position[1])] if position and int(position[1]) < len(names) else word


def told_refusals(refused, lines, listing, file):
    """Lines about the refused lines of a script, by number and refusal, for an open capture with this listing."""
    declared = {name: words for _, words, name in vcd_files.declared_in(file) if name}
    return shortened(refused, lambda one: told_refusal(*one, lines[one[0] - 1], listing, declared))


def told_refusal(number, name, line, listing, declared):
    told, command = ["line %d: %s: %s" % (number, short(line), name)], shown(line.split()[0])
    meaning = [MEANINGS.get(("refusal", name), "")]
    if name == "UnknownCommand":
        told += ["is %s meant?" % usual for usual in difflib.get_close_matches(command.lower(), usages(), 1)]
    if name == "WrongCount" and command in usages():
        told.append("usage: %s (%s)" % usages()[command])
    if name in NUMBERS:
        words = [word for word in map(shown, line.split()) if re.fullmatch(NUMBERS[name], word)]
        told += [told_number(word, listing.timescale) for word in words]
    return told + (name == "NoSuchName" and told_names(signals_in(line), listing.names, declared) or meaning)


def told_number(word, timescale):
    """A line about a time with a unit, which is no whole tick, or a hexadecimal number."""
    if word.startswith("0x"):
        return "%s: write %s" % (word, format(int(word, 16), "b"))
    return "%s: %s: write ticks" % (word, "the capture has no timescale" if timescale == "none" else "no whole tick")


def told_names(words, names, declared):
    """Lines about the names that a capture has not, or else about those that it had before the lines above."""
    told, unknown = [], [word for word in words if name_of(word, names) not in names]
    for word in unknown:
        if re.fullmatch(rb"@[0-9]+", word):
            told.append("%s: the capture has %d signals, the first is @0" % (shown(word), len(names)))
        elif word in declared:
            kind, width, *_ = map(shown, declared[word])
            told.append("%s is left out: %s, %s" % (shown(word), kind, counted(int(width), "bit%s")))
        elif found := near_names(word, names):
            told.append("%s: near names are %s" % (shown(word), ", ".join(found)))
    if not unknown:
        told = ["%s is in the capture: was it renamed or removed by a line above?" % shown(word) for word in words]
    return told


def near_names(word, names):
    """Names whose last part is spelled like that of a word, or of very many is the same, the nearest first."""
    last_of = lambda text: text.lower().rpartition(".")[2].partition("[")[0]
    found, last = {}, last_of(shown(word))
    for name in map(shown, names):
        found.setdefault(last_of(name), []).append(name)
    near = difflib.get_close_matches(last, found if len(found) < SOUGHT else found.keys() & {last}, NAMES_SHOWN)
    return difflib.get_close_matches(shown(word), sum(map(found.get, near), []), NAMES_SHOWN, 0)
