#!/bin/sh
# A million names counted and a million indices resolved: the proved InTables against std's HashMap in plain Rust, best of five each, in one run.
set -eu
top=$(cd "$(dirname "$0")/../.." && pwd)
. "$top/bench/lay_out.sh"
lay_out tables_bench "$top/bench/tables/rattle_main.txt" "artery_base artery_tables" artery_base artery_tables
rustc -O -o "$work/hash_map" "$top/bench/tables/hash_map.rs"
nanoseconds() {
    best=
    for _ in 1 2 3 4 5; do
        start=$(date +%s%N)
        "$1" >"$2"
        taken=$(($(date +%s%N) - start))
        if [ -z "$best" ] || [ "$taken" -lt "$best" ]; then best=$taken; fi
    done
    echo "$best"
}
proved=$(nanoseconds "$program" "$work/proved.txt")
plain=$(nanoseconds "$work/hash_map" "$work/plain.txt")
cmp "$work/proved.txt" "$work/plain.txt"
echo "proved: $((proved / 1000000)) ms, HashMap: $((plain / 1000000)) ms, time as a part of HashMap's: $((proved * 100 / plain)) %"
