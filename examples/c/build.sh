#!/bin/sh
# Builds the images of the examples, each into its folder.
set -eu
cd "$(dirname "$0")"
for name in parallel_sum mutex_counter barrier_phases producer_consumer litmus; do
    ./tilecc -s -o "$name/$name.elf" "$name/$name.c"
done
./tilecc -s -o false_sharing/packed.elf false_sharing/false_sharing.c
./tilecc -s -DPADDED -o false_sharing/padded.elf false_sharing/false_sharing.c
./tilecc -s -o matrix_product/in_turn.elf matrix_product/matrix_product.c
./tilecc -s -DBLOCKED -o matrix_product/blocked.elf matrix_product/matrix_product.c
