#!/bin/sh
# Builds the images of the kernels, or with the word "check" compares what it builds with them. They are kept here as
# riscv64-unknown-elf-gcc 12.2 and picolibc 1.8 made them. Each starts 64 threads, or as many as there are tiles.
# They print integers alone, so they have the smaller printf.
set -eu
cd "$(dirname "$0")"
folder=.
if [ "${1:-}" = check ]; then folder=$(mktemp -d); fi
build() {
    name=$1
    shift
    ../tilecc -Wall -Wextra -s -Wl,--defsym=vfprintf=__i_vfprintf --threads 64 "$@" -o "$folder/$name.elf"
    if [ "$folder" != . ]; then cmp "$folder/$name.elf" "$name.elf" && rm "$folder/$name.elf"; fi
}
for name in fft lu radix ocean nbody black_scholes stream_cluster pool start; do
    build $name $name.c
done
for lock in none test_and_set ticket mcs futex; do
    build lock_$lock -DLOCK="$(echo $lock | tr a-z A-Z)" locks.c
done
for barrier in none central dissemination tree futex; do
    build barrier_$barrier -DBARRIER="$(echo $barrier | tr a-z A-Z)" barriers.c
done
if [ "$folder" != . ]; then rmdir "$folder"; fi
