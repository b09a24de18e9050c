#!/bin/sh
# Times the guest loop.elf under hiersim, and under qemu-riscv32 where that is installed, and the generated program with the
# default caches and with the smallest ones.
folder=$(dirname "$0")
guest=$folder/loop.elf
instructions=51230007
generated=851987

# The nanoseconds that a command takes, which has to end with status 0.
nanoseconds() {
    start=$(date +%s%N)
    "$@" >/dev/null 2>&1 || exit 1
    echo $(($(date +%s%N) - start))
}

"$folder/../hiersim" run "$guest" 2>/dev/null || exit 1
own=$(nanoseconds "$folder/../hiersim" run "$guest") || exit 1
echo "hiersim: $((instructions * 1000 / own)) million instructions per second"
if command -v qemu-riscv32 >/dev/null; then
    other=$(nanoseconds qemu-riscv32 "$guest") || exit 1
    echo "qemu-riscv32 takes one part in $((own / other)) of that time"
else
    echo "qemu-riscv32: not installed"
fi
demo=$(nanoseconds "$folder/../hiersim" demo 7) || exit 1
echo "demo 7: $((demo / 1000000)) ms, $((generated * 1000 / demo)) million instructions per second"
small=$(nanoseconds "$folder/../hiersim" demo 7 --l1-sets 1 --l1-ways 1 --l2-sets 1 --l2-ways 1) || exit 1
echo "demo 7, smallest caches: $((small / 1000000)) ms, $((generated * 1000000 / small)) thousand instructions per second"
