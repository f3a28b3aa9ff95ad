#!/usr/bin/env bash
# Makes capture.vcd in the current folder, with sigrok-cli (made with 0.7.2, libsigrok 0.5.2). The samples of an
# analog channel stand after the digital ones as plain text.
set -eu
sigrok-cli -d demo -c samplerate=1m --samples 24 --channels D0,D1,A0 -O vcd -o capture.vcd
