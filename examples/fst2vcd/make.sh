#!/usr/bin/env bash
# Makes capture.vcd in the current folder: Icarus Verilog (11.0) writes FST, GTKWave's fst2vcd (3.3.118) turns it to VCD.
set -eu
here="$(dirname "$(readlink -f "$0")")"
iverilog -g2005 -o spi.vvp "$here/spi.v"
vvp -n spi.vvp -fst
fst2vcd capture.fst -o capture.vcd
