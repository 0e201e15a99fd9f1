#!/bin/sh
# Prints what docs/MODEL.md tells of contended lines, locks and loops of LR and SC. It wants a compiler for RISC-V (see
# ../c/tilecc) and the simulator, which is crates/tilesim/out/tilesim or the one that TILESIM names.
set -eu
cd "$(dirname "$0")"
tilesim=${TILESIM:-../../crates/tilesim/out/tilesim}
folder=$(mktemp -d)
trap 'rm -r "$folder"' EXIT

# run NAME SETTINGS: the end, events, sums and the greatest clock of a run
run() {
    printf '%b' "$2" >"$folder/settings"
    { "$tilesim" run "$folder/image" --config "$folder/settings" || true; } | awk -v name="$1" '
        /^end:/ { end = substr($0, 6) } /^events:/ { events = $2 } /^total:/ { hits = $5; misses = $7 }
        /^tile/ { if ($4 > clock) clock = $4 }
        END { printf "%s: %s, %d events, %d hits, %d misses, greatest clock %d\n", name, end, events, hits, misses, clock }'
}

../c/tilecc -s -o "$folder/image" one_word.c
for tiles in 1 4 16 64; do run "one word, $tiles tiles" "tiles = $tiles\n"; done
for outside in 0 100; do
    for lock in TEST_AND_SET TICKET MCS; do
        ../c/tilecc -s -D$lock -DOUTSIDE=$outside -o "$folder/image" locks.c
        run "lock $lock, outside $outside" 'tiles = 8\n'
    done
done
../c/tilecc -s -o "$folder/image" lr_sc.c
for quantum in 20 40 45 50 1000; do
    run "LR and SC, quantum $quantum" "tiles = 2\npolicy = \"barrier\"\nquantum = $quantum\n"
done
