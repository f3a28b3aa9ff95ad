#!/usr/bin/env bash
# Makes capture.vcd in the current folder, with sigrok-cli (made with 0.7.2, libsigrok 0.5.2). The way over a session
# file leaves out the line 'META samplerate' that a direct conversion begins with.
set -eu
here="$(dirname "$(readlink -f "$0")")"
sigrok-cli -I csv:samplerate=1000000:column_formats=4l:header=yes -i "$here/transfer.csv" -O srzip -o session.sr
sigrok-cli -i session.sr -O vcd -o capture.vcd
