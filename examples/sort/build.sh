#!/bin/sh
# Builds sort.elf, with Debian's gcc-riscv64-linux-gnu, where crates/example_runs runs it.
# With --paged FILE it is built into FILE for qemu-riscv64, which wants the segment at a page of the file.
set -e
cd "$(dirname "$0")"
page=-n, out=../../crates/example_runs/data/sort.elf
[ "$1" = --paged ] && page= out=$2
riscv64-linux-gnu-gcc -march=rv64i -mabi=lp64 -mcmodel=medany -O1 -ffreestanding -fno-builtin \
    -fno-jump-tables -nostdlib -static -s -Wl,${page}-T,one_segment.ld,--build-id=none -o "$out" sort.c
