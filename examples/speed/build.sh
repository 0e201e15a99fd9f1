#!/bin/sh
# Builds the images of the programs beside their sources, with the compiler of examples/c/tilecc. They are kept here
# as riscv64-unknown-elf-gcc 12.2 made them.
set -eu
cd "$(dirname "$0")"
for name in exit life sha256 heapsort; do
    ../c/tilecc -s -o "$name.elf" "$name.c"
done
