"""Runs of programs whose memory, readers and writers are hostile: devices.c is preloaded over them."""

import itertools
import os
import shutil
import subprocess
import sys

from common import CHECKS, load_if_there, run

NO_COMPILER = "no C compiler was found: install cc or clang, name one by CC, or put the Rattle kit's rt into PATH"


def compiler():
    """The command of a C compiler; where there is no other, that of the Rattle kit, which has no C library to link."""
    found = os.environ.get("CC") or shutil.which("cc") or shutil.which("clang")
    if found:
        return [found]
    kit = os.path.join(os.path.dirname(os.path.realpath(shutil.which("rt") or "")), os.pardir, "toolchain")
    clang = os.path.join(kit, "bin", "clang")
    return [clang, "-fuse-ld=lld", "-nostdlib"] if os.path.exists(clang) else sys.exit(NO_COMPILER)


def pieces_of(count):
    """The settings for reads and writes of at most so many bytes."""
    return {"READ_AT_MOST": count, "WRITE_AT_MOST": count}


class Devices:
    """devices.c as it was built in a folder. Settings are those at its head."""

    def __init__(self, work):
        self.library, self.told = os.path.join(work, "devices.so"), os.path.join(work, "told")
        flags = ["-O2", "-fno-builtin", "-fPIC", "-shared", "-o", self.library, os.path.join(CHECKS, "devices.c")]
        subprocess.run(compiler() + flags, check=True)

    def run(self, words, settings, **how):
        """(status, standard output, standard error) of a program, as bytes. Without settings nothing is preloaded."""
        environment = {name: str(value) for name, value in settings.items()}
        preloaded = {"LD_PRELOAD": self.library, **environment} if settings else {}
        return run(words, text=False, env={**os.environ, **preloaded}, **how)

    def run_told(self, words, settings, **how):
        """The same, and the lines that were told of the run."""
        ending = self.run(words, {**settings, "TOLD": self.told}, **how)
        told = load_if_there(self.told, default=b"").decode().splitlines()
        if told:
            os.remove(self.told)
        return ending, told

    def refusals(self, words, settings={}, **how):
        """(N, how the program ends if its growth N is refused), for N = 1, 2, .. until a run has fewer growths."""
        for number in itertools.count(1):
            ending, told = self.run_told(words, {**settings, "GROWTH_REFUSED": number}, **how)
            if "refused" not in told:
                return
            yield number, ending
