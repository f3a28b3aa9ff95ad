#!/usr/bin/env bash
# Makes capture.vcd in the current folder, with SystemC (made with 2.3.4).
set -eu
here="$(dirname "$(readlink -f "$0")")"
g++ -std=c++17 -o fifo "$here/fifo.cpp" -lsystemc
./fifo
