"""What a run takes: its CPU time, and the most memory of one process."""

import os
import subprocess
import sys
import typing


class Cost(typing.NamedTuple):
    """What one work took: seconds of CPU, bytes of memory."""

    cpu: float
    memory: int


def total(costs):
    """The cost of one after the other."""
    return Cost(sum(cost.cpu for cost in costs), max(cost.memory for cost in costs))


def least(costs):
    """The cost of the same several times."""
    return Cost(min(cost.cpu for cost in costs), max(cost.memory for cost in costs))


def cost_of(command):
    """What a command costs that ends well."""
    process = subprocess.Popen(command, stdin=subprocess.DEVNULL, stdout=subprocess.DEVNULL)
    _, status, used = os.wait4(process.pid, 0)
    process.returncode = os.waitstatus_to_exitcode(status)
    if process.returncode != 0:
        sys.exit("status %d: %s" % (process.returncode, " ".join(command)))
    return Cost(used.ru_utime + used.ru_stime, used.ru_maxrss * 1024)
