#!/usr/bin/env bash
# Makes capture.vcd in the current folder: the capture of the UART transmitter, to LXT2 and back by GTKWave's
# converters (3.3.118). lxt2vcd writes a byte 1 in the place of a value after $dumpoff.
set -eu
here="$(dirname "$(readlink -f "$0")")"
vcd2lxt2 "$here/../iverilog/capture.vcd" capture.lx2
lxt2vcd capture.lx2 > capture.vcd
