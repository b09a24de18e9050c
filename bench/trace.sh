#!/bin/sh
# Times a trace of a million accesses under hiersim, half loads and half stores over 64 KiB.
folder=$(dirname "$0")
file=$(mktemp)
trap 'rm -f "$file"' EXIT
awk 'BEGIN {
    for (row = 0; row < 1000000; row++) {
        at = 65536 + 4 * (row * 7919 % 16384)
        if (row % 2) printf "L %x 4\n", at; else printf "S %x 4 %x\n", at, row
    }
}' >"$file"
start=$(date +%s%N)
"$folder/../hiersim" trace "$file" >/dev/null || exit 1
echo "trace: $((1000000 * 1000 / (($(date +%s%N) - start) / 1000))) thousand accesses per second"
