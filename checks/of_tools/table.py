"""What decoders say, as a table: its rows in each form, times without rounding, the test that the cookbook shows."""

import csv
import json
import os
import sys

from common import EXAMPLES, TOP, module_of, run, same, store

TOOL = os.path.join(TOP, "tools/vcdedit-table")
I2C, I2C_LINE = os.path.join(EXAMPLES, "i2c/capture.vcd"), "i2c bench.scl bench.sda"
# What is on a bus: S and P are START and STOP, 0, 1 and x are bits. Address, direction, data, acknowledges and end of
# each transfer.
BUS = [
    ("S 1010000 0 0 00101010 0 S 1010000 1 0 11000101 1 P",
     ["0x50 write|0x2a|ack ack|repeated-start", "0x50 read|0xc5|ack nack|stop"]),
    ("S 1010000 0 1 P", ["0x50 write||nack|stop"]),
    ("S 1111010 0 0 10101010 0 11110000 0 S 1111010 1 0 00000001 1 P",
     ["0x2aa write|0xf0|ack ack ack|repeated-start", "0x2aa read|0x01|ack nack|stop"]),
    ("S 1111010 0 0 1010101x 0 11110000 0 P", ["high-0x2? write|0xf0|ack ack ack|stop"]),
    ("S 1111010 1 0 0000000x 0 00000001 1 S 1111010 0 0 P",
     ["high-0x2? read|? 0x01|ack ack nack|repeated-start", "high-0x2? write||ack|stop"]),
    ("S 101000x 0 0 0000000x 0 00000001 x P", ["?|? 0x01|ack ack ?|stop"]),
    ("S 1010000 0 0 10101 P S P", ["0x50 write|partial-6|ack|stop", "|||stop"]),
    ("S 1010000 0 0 00000001 0", ["0x50 write|0x01|ack ack|"]),
    ("x P S 1010000 0 0 P", ["|||stop", "0x50 write||ack|stop"]),
]
# A tick, a timescale, and microseconds.
TIMES = [
    (1500, "1 ns", "1.5"), (5, "10 ns", "0.05"), (1, "1 fs", "0.000000001"), (0, "1 ps", "0"), (3, "100 us", "300"),
    (2**63 - 1, "1 ps", "9223372036854.775807"), (2**63 - 1, "100 s", "922337203685477580700000000"), (7, "none", None),
]
SPI = "$timescale 10 ns $end $var wire 1 ! c $end $var wire 1 \" d $end $enddefinitions $end\n#0 0! 1\"\n" + "".join(
    "#%d %d!\n%s" % (tick, tick % 2, "#%d x\"\n" % (tick + 1) if tick == 9 else "") for tick in range(1, 12)) + "#15 x!\n#20\n"
SPI_ROWS = """line  decoder  first  last  first_us  last_us  what       mosi
1     spi      1      7     0.01      0.07     word       0xf
1     spi      9      11    0.09      0.11     partial 2
2     spi      1      3     0.01      0.03     word       0x3
2     spi      5      7     0.05      0.07     word       0x3
2     spi      9      11    0.09      0.11     word       ?
"""
SPI_LINES = ["spi c d - - 0 4 msb", "spi c d - - 0 2 msb"]
REMARKS = ["spi: CLK becomes x or z: 1, at 15"]
# Words of two bits in two selections, the first of which has two.
SELECTED = """$var wire 1 ! c $end $var wire 1 " d $end $var wire 1 # s $end $enddefinitions $end
#0 0! 1" 0# #1 1! #2 0! #3 1! #4 0! #5 1! #6 0! #7 1! #8 0! 1# #9 1! #10 0! 0# #11 1! #12 0! #13 1! #14 0! 1# #15
"""
UART, GLITCHES, IVERILOG, SYSTEMC = (
    os.path.join(EXAMPLES, name, "capture.vcd") for name in ("sigrok-uart", "glitches", "iverilog", "systemc"))
# Words, the status, and a part of what is told, or nothing. Where the status is not 0, there is no table.
TOLD = [
    ([UART, "uart libsigrok.rx 115200 8 none 1"], 0,
     "vcdedit-table: line 1: uart: is 115200 a baud rate? BIT is how many ticks a bit lasts, or 115200baud\n"),
    ([UART, "uart libsigrok.rx 115200baud 8 none 1"], 0,
     "vcdedit-table: line 1: carried out as: uart libsigrok.rx 78125/9 8 none 1\n"),
    ([UART, "uart libsigrok.rx 9600 8 none 1"], 0,
     "vcdedit-table: line 1: uart: edges within frames more than a quarter of a bit early or late"),
    ([UART, "value libsigrok.rx 0"], 0, "no line decodes: write uart, spi or i2c, as in 'i2c bench.scl bench.sda'"),
    ([IVERILOG, "invert bench.clk", "remove @0", "cut 1000 9000"], 0,
     "vcdedit-table: output: variables of one code that differ from now on: bench.clk, "
     "bench.transmitter.clk\nvcdedit-table: no line decodes"),
    ([SYSTEMC, "value SystemC.top.fill 3"], 1, "NoSuchName\n    SystemC.top.fill is left out: real, 1 bit\n"),
    ([GLITCHES, "shift bench.rx 3.5us"], 1, "BadNumber\n    3.5us: no whole tick: write ticks\n"),
    ([GLITCHES, "force bench.rx 3 5 0x2F"], 1, "BadValueText\n    0x2F: write 101111\n"),
    ([GLITCHES, "uart bench.rx 8.68 8 none 1"], 1, "BadNumber\n    this is not a decimal number, or it is too large\n"
     "    write digits alone, without unit or 0x; for BIT also a ratio, as 217/25\n"),
    ([I2C, *I2C_LINE.split()], 1, "\n    quote each line: vcdedit-table CAPTURE"),
    ([I2C, I2C_LINE, "--csv", "--json"], 2, "not allowed with"), (["--script", "-", "-"], 2, "standard input is the"),
    ([I2C, I2C_LINE, "frob"], 1, "line 2: frob"), ([I2C, "frob", "--script", "script"], 1, "line 4: frob"),
    (["c", "list"], 3, "c: line 1: frob: UnexpectedWord"), (["--", "-c", "list"], 3, ": -c: line 1: frob: Unex"),
    *((words, 4, "vcdedit-table: none: No such file") for words in (["none", "list"], ["c", "--script", "none"])),
]


def bus(text):
    """A capture of a bus, which is x until it is reset. Nothing is to be remarked of that."""
    changes = ["x! x\"", "1! 1\""]
    for sign in text.replace(" ", ""):
        changes += {"S": ['1"', "1!", '0"', "0!"], "P": ['0"', "1!", '1"']}.get(sign, [sign + '"', "1!", "0!"])
    stamps = "".join("#%d %s\n" % (10 * place, change) for place, change in enumerate(changes))
    declared = '$timescale 100 ns $end $var wire 1 ! c $end $var wire 1 " d $end $enddefinitions $end\n'
    return declared + stamps + "#%d\n" % (10 * len(changes))


def transfer_text(row):
    texts = [" ".join(filter(None, [row.get("address"), row.get("direction")]))]
    return "|".join([*texts, " ".join(row["data"]), " ".join(row["acknowledges"]), row.get("end", "")])


def table(*words, given=None):
    return run([TOOL, *words], input=given)


def check():
    for text, wanted in BUS:
        (line,) = json.loads(table("-", "--json", "i2c c d", given=bus(text))[1])
        is_odd = "x" in text or "P" not in text or any("partial" in row for row in wanted)
        yield same(text, (list(map(transfer_text, line["rows"])), line["remarks"] != []), (wanted, is_odd))
    status, shown, errors = table(I2C, "--csv", I2C_LINE)
    csv_rows = [{name: text for name, text in row.items() if text} for row in csv.DictReader(shown.splitlines())]
    (line,) = json.loads(table(I2C, "--json", I2C_LINE)[1])
    texts = [{name: " ".join(value) if isinstance(value, list) else str(value) for name, value in row.items() if value}
             for row in ({"line": line["line"], "decoder": line["decoder"], **row} for row in line["rows"])]
    yield same("csv and json", (status, errors, csv_rows), (0, "", texts))
    head = "line,decoder,first,last,first_us,last_us,selection,what,data,mosi,miso,address,direction,acknowledges,end"
    yield same("the head of csv", shown.partition("\n")[0], head)
    store("script", text="\n".join(["# asks", SPI_LINES[0], "list\n"]))
    yield "the names of none", table("-", "--script", "script", given="$enddefinitions $end")[0] == 1
    store("spi", text=SPI)
    told = "".join("vcdedit-table: line %d: %s\n" % (number, remark) for number in (1, 2) for remark in REMARKS)
    yield same("aligned", table("-", *SPI_LINES, given=SPI), (0, SPI_ROWS, told))
    yield same("no remarks", table("-q", "spi", "--script", "-", given="\n".join(SPI_LINES)), (0, SPI_ROWS, ""))
    lines = json.loads(table("-q", "--json", "spi", *SPI_LINES)[1])
    yield same("remarks, once", [line["remarks"] for line in lines], [REMARKS] * 2)
    (line,) = json.loads(table("-", "--json", "spi c d - s 0 2 msb", given=SELECTED)[1])
    yield same("selections", [(row["first"], row["selection"]) for row in line["rows"]], [(1, 1), (5, 1), (11, 2)])
    (line,) = json.loads(table(I2C, "--json", "--from", "204", "--to=400us", I2C_LINE)[1])
    yield same("a part", [(row["first"], row["last"]) for row in line["rows"]], [(1, 191)])
    yield same("no rows", [table(I2C, *form, "list")[1] for form in ([], ["--json"])], ["", "[\n]\n"])
    for tick, timescale, wanted in TIMES:
        yield same("%d at %s" % (tick, timescale), module_of(TOOL).microseconds(tick, timescale), wanted)
    os.link(store("c", text="frob\n"), "-c")
    for words, status, told in TOLD:
        found = table(*words)
        right = found[0] == status and (status == 0 or found[1] == "") and told in found[2]
        yield "%s: %s" % (words, found), right and bool(told) == bool(found[2])
    yield "no rate where bytes were found", "baud" not in table(UART, "uart libsigrok.rx 9600 8 none 1")[2]
    path = os.pathsep.join([os.path.join(TOP, "tools"), os.environ["PATH"]])
    words = [sys.executable, "-B", "-c", "import test_bus; test_bus.test_register_is_read()"]
    environment = {**os.environ, "PATH": path, "PYTHONPATH": EXAMPLES}
    yield same("the test of the cookbook", run(words, cwd=TOP, env=environment), (0, "", ""))
