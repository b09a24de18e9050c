#!/bin/sh
# Builds the C programs of this folder for RV32IM, each as NAME.elf beside this folder, with riscv64-unknown-elf-gcc or,
# where that is not installed, with clang and ld.lld. Where neither is there it says so, and leaves the files as they are.
# Then it runs each of them, and compares what it prints and its status with those under qemu-riscv32 where that is there.
set -e
folder=$(cd "$(dirname "$0")" && pwd)
objects=$(mktemp -d)
trap 'rm -rf "$objects"' EXIT
flags="-march=rv32im -mabi=ilp32 -ffreestanding -O2"
clang="clang --target=riscv32-unknown-elf -mno-relax -Qunused-arguments"

compile() {
    if command -v riscv64-unknown-elf-gcc >/dev/null; then
        riscv64-unknown-elf-gcc $flags -nostdlib -nostartfiles -s -T "$folder/link.ld" -o "$2" "$folder/start.s" "$1"
    else
        $clang $flags -c -o "$objects/start.o" "$folder/start.s"
        $clang $flags -c -o "$objects/program.o" "$1"
        ld.lld -T "$folder/link.ld" -o "$2" "$objects/start.o" "$objects/program.o"
    fi
}

outcome() {
    status=0
    printf 'one three eleven two\n' | "$@" || status=$?
    echo "exit $status"
}

if ! command -v riscv64-unknown-elf-gcc >/dev/null && ! { command -v clang && command -v ld.lld; } >/dev/null; then
    echo "no compiler for RISC-V is installed: nothing was built"
    exit 0
fi
for program in copy words list matrix text noise phases; do
    elf=$folder/../$program.elf
    compile "$folder/$program.c" "$elf"
    echo "built examples/$program.elf"
    outcome "$folder/../../hiersim" run "$elf" --json | tee "$objects/outcome"
    if command -v qemu-riscv32 >/dev/null && ! outcome qemu-riscv32 "$elf" | cmp - "$objects/outcome"; then
        echo "examples/$program.elf does otherwise under qemu-riscv32"
        exit 1
    fi
done
