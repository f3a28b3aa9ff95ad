#!/usr/bin/env bash
# Makes capture.vcd in the current folder, with sigrok-cli (made with 0.7.2, libsigrok 0.5.2). A direct conversion of
# a file with a sample rate begins with a line that is no VCD.
set -eu
here="$(dirname "$(readlink -f "$0")")"
sigrok-cli -I csv:samplerate=1000000:column_formats=4l:header=yes -i "$here/../sigrok-cli/transfer.csv" -O vcd -o capture.vcd
