#!/usr/bin/env bash
# Makes capture.vcd in the current folder, with GHDL (made with 2.0.0, mcode).
set -eu
here="$(dirname "$(readlink -f "$0")")"
ghdl -a --std=08 "$here/bench.vhd"
ghdl -e --std=08 bench
ghdl -r --std=08 bench --vcd=capture.vcd --stop-time=230us
