#!/usr/bin/env bash
# Makes capture.vcd in the current folder: the capture of the lift, to VZT and back by GTKWave's converters (3.3.118).
set -eu
here="$(dirname "$(readlink -f "$0")")"
vcd2vzt "$here/../ghdl/capture.vcd" capture.vzt
vzt2vcd capture.vzt > capture.vcd
