"""Installing and packing vcdedit, and its completions."""

import os
import re

from common import SKIPPED, TOP, lay_out, paths_below, run, same, store, text_at, tools_missing

# Half a second is not enough on a busy machine, so that a check of names waits longer.
COMPLETE = """source <(sed 's/timeout 0.5/timeout 20/' "$1"); shift
COMP_WORDS=("$@"); COMP_CWORD=$(($# - 1)); _vcdedit "$1"; printf '%s\n' "${COMPREPLY[@]}" """
# The words of a command line, of which the last is completed, and what comes of it, where a capture has these signals.
NAMED = """$scope module tb $end $var wire 1 ! clk $end $var wire 8 " q [7:0] $end $var wire 8 # a b [3:0] $end
$upscope $end $enddefinitions $end"""
NAMES = [
    (["--keep", ""], ["tb.clk", r"tb.q\[7:0\]", r"tb.ab\[3:0\]"]), (["--map", "tb.q"], [r"tb.q\[7:0\]"]),
    (["--keep", "tb.q[7:"], [r"0\]"]), (["--keep", "clk"], [""]), (["-i", "named"], [""]),
]
COMMANDS = ["vcdedit", "vcdedit-amend", "vcdedit-apply", "vcdedit-compare", "vcdedit-table", "vcdedit-view"]
# What is installed: files of each command, and documents.
FILES = ["bin/%s", "man/man1/%s.1", "bash-completion/completions/%s", "fish/vendor_completions.d/%s.fish"]
DOCUMENTS = ["CHANGELOG.md", "COOKBOOK.md", "SCRIPT.md", "FORMATS.md", "messages.txt", "_vcdedit"]
INSTALLED = [*DOCUMENTS, *(file % command for command in COMMANDS for file in FILES)]


def are_whole(paths):
    return all(any(path.endswith("/" + end) for path in paths) for end in INSTALLED)


def installs(folder):
    os.makedirs(os.path.join(folder, "root", "bin"))
    # What is installed finds the programs that are installed.
    del os.environ["VCDEDIT_AMEND"]
    lay_out(os.environ.pop("VCDEDIT"), folder)
    store(folder, "named.vcd", text=NAMED)
    status, shown, _ = run(["make"], cwd=folder)
    is_told = all("make " + target in shown for target in ("install", "uninstall", "deb"))
    yield "make says what else there is", status == 0 and is_told
    for words in (["PREFIX=here it is"], ["PREFIX=/", "DESTDIR=%s/root" % folder]):
        before = paths_below(folder)
        status = run(["make", "install", *words], cwd=folder)[0]
        added = [path for path in paths_below(folder) if path not in before]
        yield "install %s" % words, status == 0 and are_whole(added)
        if words == ["PREFIX=here it is"]:
            yield from run_from_anywhere(os.path.join(folder, "here it is/bin"))
            yield from explains_tools(os.path.join(folder, "here it is/bin"))
        run(["make", "install", *words], cwd=folder)
        run(["make", "uninstall", *words], cwd=folder)
        yield "uninstall %s" % words, paths_below(folder) == before


def packs(folder):
    """A package has all that is installed, and wants the C library."""
    absent = tools_missing({"dpkg-shlibdeps": "dpkg-dev"})
    if absent:
        yield "make deb: " + absent[0], SKIPPED
        return
    status, path, errors = run(["make", "-s", "deb", "MAINTAINER=A <a@b.c>"], cwd=folder)
    held = run(["dpkg-deb", "--contents", path.strip()], cwd=folder)[1].splitlines()
    names = [line.split()[-1].removesuffix(".gz") for line in held]
    yield "make deb: %s" % errors, status == 0 and are_whole(names)
    yield "what it wants", run(["dpkg-deb", "--field", path.strip(), "Depends"], cwd=folder)[1].startswith("libc6 ")


def run_from_anywhere(folder):
    """What is installed runs in another folder, and each tool finds its modules and the program next to it."""
    version = run([os.path.join(folder, "vcdedit"), "--version"], cwd="/")[1].partition(" ")[2]
    for command in COMMANDS:
        for option in ("-V", "--version"):
            said = run([os.path.join(folder, command), option], cwd="/")
            yield "%s %s" % (command, option), said == (0, "%s %s" % (command, version), "") and version
    status, _, errors = run([os.path.join(folder, "vcdedit-table"), "/dev/null", "list"], cwd="/")
    yield "a tool with its program: " + errors, status == 3 and "/dev/null: line 1: : Truncated\n" in errors


def explains_tools(folder):
    """Each option that a help lists is in the page and completed, and no other is in the page."""
    def completed(name, *words):
        words = [os.path.join(TOP, "completions/vcdedit.bash"), os.path.join(folder, name), *words]
        return run(["bash", "--norc", "-c", COMPLETE, "bash", *words])[1].splitlines()

    for name in COMMANDS:
        status, shown, _ = run([os.path.join(folder, name), "--help"])
        options = set(re.findall(r"^ +(?:-\w(?: \S+)?, )?--([a-z-]+)", shown, flags=re.M))
        page = text_at("docs/%s.1" % name).replace("\\-", "-").split(".SH OPTIONS")[-1]
        told = set(re.findall(r"^\.[BI]\w* .*?--([a-z-]+)", re.split(r"^\.S[HS]", page, flags=re.M)[0], flags=re.M))
        yield name + ": help", status == 0 and options >= {"help", "version"}
        yield name + ": options of the page", told == options
        yield name + ": bash completes its options", {word[2:] for word in completed(name, "--")} == options
        yield name + ": zsh knows it", name in text_at("completions/_vcdedit").split("\n")[0].split()
    usages = text_at("launch/vcdedit-help.txt").partition("Lines of a script.")[2].partition("An edit is answered")[0]
    listed = re.findall(r"^\\fB([a-z0-9]+)\\fR.*\t", text_at("docs/vcdedit-amend.1"), flags=re.M)
    yield same("commands of the page", sorted(listed), sorted(re.findall("^  ([a-z0-9]+) ", usages, flags=re.M)))
    for words, wanted in NAMES:
        found = completed("vcdedit-compare", os.path.join(folder, "../../named.vcd"), *words)
        yield same("bash completes %s" % words, found, wanted)


def check():
    tree = os.path.abspath("tree")
    yield from installs(tree)
    yield from packs(tree)
