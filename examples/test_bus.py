"""A test of a bus by its capture, for pytest: what was sent, and how long it took."""

import json
import subprocess
from fractions import Fraction

TABLE = ["vcdedit-table", "--json", "examples/i2c/capture.vcd", "i2c bench.scl bench.sda"]


def test_register_is_read():
    (line,) = json.loads(subprocess.run(TABLE, check=True, stdout=subprocess.PIPE).stdout)
    write, read = line["rows"]
    assert (write["address"], write["direction"], write["data"]) == ("0x50", "write", ["0x2a"])
    assert (read["address"], read["acknowledges"], read["end"]) == ("0x50", ["ack", "nack"], "stop")
    assert Fraction(read["last_us"]) - Fraction(write["first_us"]) < 400
    assert not line["remarks"]
