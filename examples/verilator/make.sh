#!/usr/bin/env bash
# Makes capture.vcd in the current folder, with Verilator (made with 5.006).
set -eu
here="$(dirname "$(readlink -f "$0")")"
verilator --binary --trace --trace-structs --top-module bench --Mdir built "$here/counter.sv"
built/Vbench
