#!/usr/bin/env bash
# Makes capture.vcd in the current folder, with Icarus Verilog (made with 11.0).
set -eu
here="$(dirname "$(readlink -f "$0")")"
iverilog -g2005 -o bench.vvp "$here/bench.v" "$here/../iverilog/uart_tx.v"
vvp -n bench.vvp
