"""What the checks share: where things are, files, runs of programs, and the report at the end."""

import importlib.machinery
import importlib.util
import os
import re
import shutil
import subprocess
import sys
import tempfile

CHECKS = os.path.dirname(os.path.abspath(__file__))
TOP = os.path.dirname(CHECKS)
sys.path.append(os.path.join(TOP, "tools"))
import vcd_runs

# The edits of a script, as the tools know them. `vcd_alloc_failures` has a call for each name.
EDITS = [edit.decode() for edit in vcd_runs.EDITS]
CASES = os.path.join(TOP, "cases")
EXAMPLES = os.path.join(TOP, "examples")
# What `make install` and `make deb` want of the tree.
INSTALLED = """vcdedit vcdedit-amend vcdedit-compare launch CHANGELOG.md Makefile crates.txt completions docs examples generate
    tools""".split()
SECONDS = 120
# Whether the programs are built without a proof, with checks at run time (checks/quick --unproved): then each takes far
# more memory and time than a program does.
IS_UNPROVED = "UNPROVED" in os.environ
# The crates of the programs. What the prover said of each is in its out/proof.txt (generate/proofs).
PROGRAMS = ["vcdedit", "vcdedit_amend", "vcdedit_compare"]
# What programs hold in files (TMPDIR) is in a folder of each check's own, so that no check takes a name from another.
HELD = tempfile.TemporaryDirectory(prefix="vcdedit-check-")
os.environ["TMPDIR"] = HELD.name
# The outcome of what this machine can't check.
SKIPPED = object()
MEASURED = """import resource, subprocess, sys
status = subprocess.run(["sh", "-c", '"$@" > /dev/null; exit $?', "sh", *sys.argv[1:]]).returncode
print(status, resource.getrusage(resource.RUSAGE_CHILDREN).ru_maxrss * 1024)"""


def load(*path):
    """The bytes of a file."""
    with open(os.path.join(*path), "rb") as file:
        return file.read()


def load_if_there(*path, default=None):
    """The bytes of a file, or the default if it is not there."""
    try:
        return load(*path)
    except FileNotFoundError:
        return default


def text_at(path):
    """The text of a file of the repository."""
    return load(TOP, path).decode()


def store(*path, text):
    """Writes a file and the folders that it wants, and gives its path."""
    path = os.path.join(*path)
    os.makedirs(os.path.dirname(os.path.abspath(path)), exist_ok=True)
    with open(path, "wb") as file:
        file.write(text if isinstance(text, bytes) else text.encode())
    return path


def store_program(*path, text):
    """The same of a script that can be run."""
    path = store(*path, text=text)
    os.chmod(path, 0o755)
    return path


def code_of(position):
    """The identifier code of a signal in the written form: 94 letters, the first of two before the second."""
    code, number = "", position + 1
    while number:
        code += chr(33 + (number - 1) % 94)
        number = (number - 1) // 94
    return code


def toggling(changes, declared="$var wire 1 ! x $end\n", first="0!\n"):
    """A capture of variables of the code `!`, which changes at each tick from 1 on."""
    stamps = "".join("#%d\n%d!\n" % (tick, tick % 2) for tick in range(1, changes + 1))
    return declared + "$enddefinitions $end\n#0\n" + first + stamps


def paths_below(folder):
    """The paths of all files and folders below a folder."""
    return sorted(os.path.join(place, name) for place, *names in os.walk(folder) for name in sum(names, []))


def run(words, text=True, timeout=SECONDS, **how):
    """(status, standard output, standard error) of a program, as text or as bytes. One that takes longer is ended, and
    has the status 124, as `timeout` gives."""
    try:
        done = subprocess.run(words, capture_output=True, text=text, timeout=timeout, **how)
    except subprocess.TimeoutExpired:
        told = "took more than %d seconds" % timeout
        return 124, *(("", told) if text else (b"", told.encode()))
    return done.returncode, done.stdout, done.stderr


def measured(words):
    """(status, the most memory in bytes) of a program. A shell starts it, so that this process does not count."""
    words = [sys.executable, "-S", "-c", MEASURED, *words]
    return tuple(map(int, run(words, env={**os.environ, "GLIBC_TUNABLES": ""})[1].split()))


def same(name, found, wanted):
    """The outcome of a check that finds what it wants, with its name."""
    return "%s: %s" % (name, found), found == wanted


def tools_missing(packages):
    """A line for each tool that is not on this machine. Each has the packages of Debian that it wants."""
    absent = [tool for tool in packages if shutil.which(tool) is None]
    return ["%s is missing: apt-get install %s" % (tool, packages[tool]) for tool in absent]


def module_of(script):
    """What a script of the repository defines, whose name has no ending."""
    name = os.path.basename(script)
    loader = importlib.machinery.SourceFileLoader(name, os.path.join(TOP, script))
    module = importlib.util.module_from_spec(importlib.util.spec_from_loader(name, loader))
    loader.exec_module(module)
    return module


def with_those_below(crate):
    """A crate, and those of crates.txt that it stands on."""
    below = dict(re.findall(r"^(\w+):(.*)$", text_at("crates.txt"), flags=re.M))
    crates = [crate]
    for one in crates:
        crates += [name for name in below[one].split() if name in below and name not in crates]
    return crates


def neighbour_of(program, name):
    """The program of this name that was built beside a vcdedit, in the tree of its crate, or else next to it."""
    folder = program.removesuffix("/vcdedit/out/vcdedit")
    in_tree, crate = os.path.basename(folder) == "crates", "vcdedit_" + name
    return os.path.join(folder, crate, "out", crate) if in_tree else program + "-" + name


def amend_of(program):
    return neighbour_of(program, "amend")


def compare_of(program):
    return neighbour_of(program, "compare")


def lay_out(program, folder):
    """A copy of the tree in a folder, as far as it is installed, with the programs where they are built."""
    for part in INSTALLED:
        source, copy = os.path.join(TOP, part), os.path.join(folder, part)
        if os.path.isdir(source):
            # other checks write their bytecode meanwhile
            shutil.copytree(source, copy, ignore=shutil.ignore_patterns("__pycache__"))
        else:
            shutil.copy2(source, copy)
    built = os.path.join(folder, "crates/vcdedit/out/vcdedit")
    for source, copy in ((program, built), *((of(program), of(built)) for of in (amend_of, compare_of))):
        os.makedirs(os.path.dirname(copy))
        shutil.copy(source, copy)


def program_argument(usage, most=1):
    """The path of the program that a check is given. The check ends where there is none."""
    if not 2 <= len(sys.argv) <= 1 + most:
        sys.exit(usage)
    if not os.access(sys.argv[1], os.X_OK):
        sys.exit("there is no program %s: `rt ci` builds it, or `rt run` in the folder of its crate" % sys.argv[1])
    return os.path.abspath(sys.argv[1])


class Report:
    """How many checks passed and failed, and which were skipped. A failure is shown as it is found."""

    def __init__(self):
        self.passed = self.failed = 0
        self.skipped = []

    def check(self, holds, failure):
        """Counts one check, which may fail with this line, and gives whether it holds. One that is skipped has in the
        line what is missing."""
        if holds is SKIPPED:
            self.skipped.append(failure)
        elif holds:
            self.passed += 1
        else:
            self.failed += 1
            print(failure, flush=True)
        return bool(holds)

    def count(self, checks, failures):
        """Counts so many checks, of which these failed."""
        for failure in failures:
            print(failure, flush=True)
        self.passed += max(0, checks - len(failures))
        self.failed += len(failures)

    def add(self, name, status, shown):
        """Adds what another check counted, by the last line that it printed. Its status must say the same. One that counts
        nothing has failed."""
        counts = re.search(r"^(?:\d+ skipped: (.*)\n)?(\d+) passed, (\d+) failed\n\Z", shown, re.M)
        skipped, passed, failed = counts.groups() if counts else (None, 0, 0)
        passed, failed = int(passed), int(failed)
        self.skipped += skipped.split("; ") if skipped else []
        self.passed, self.failed = self.passed + passed, self.failed + failed
        if passed + failed == 0 or (status != 0) != (failed != 0):
            self.check(False, "%s: status %d after %d passed, %d failed" % (name, status, passed, failed))

    def end(self):
        """Says how many there were, and ends the check."""
        if self.skipped:
            print("%d skipped: %s" % (len(self.skipped), "; ".join(self.skipped)))
        print("%d passed, %d failed" % (self.passed, self.failed))
        sys.exit(1 if self.failed else 0)
