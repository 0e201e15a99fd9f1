#!/bin/sh
# Builds data.elf, with Debian's gcc-riscv64-linux-gnu, where crates/example_runs runs it.
set -e
cd "$(dirname "$0")"
riscv64-linux-gnu-gcc -march=rv64i -mabi=lp64 -mcmodel=medany -O1 -ffreestanding -fno-builtin \
    -fno-jump-tables -nostdlib -static -s -Wl,-n,-T,two_segments.ld,--build-id=none -o ../../crates/example_runs/data/data.elf data.c
