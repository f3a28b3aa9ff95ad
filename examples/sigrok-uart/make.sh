#!/usr/bin/env bash
# Makes capture.vcd in the current folder, with sigrok-cli (made with 0.7.2, libsigrok 0.5.2): a serial line of 115200
# baud and a trigger, sampled at 200 MHz, which is written at 1 ns.
set -eu
awk 'BEGIN {
    print "rx,trigger"
    bits = "1111" "0111100101" "11" "0110100101" "1111"    # "O" and "K", least significant bit first
    for (i = 0; i < length(bits) * 200000000 / 115200; i++)
        print substr(bits, 1 + int(i * 115200 / 200000000), 1) "," (i >= 5000 && i < 6000)
}' > line.csv
sigrok-cli -I csv:samplerate=200000000:column_formats=2l:header=yes -i line.csv -O srzip -o session.sr
sigrok-cli -i session.sr -O vcd -o capture.vcd
