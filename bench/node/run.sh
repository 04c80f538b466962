#!/bin/sh
# Two nodes in memory: a million system messages with their acknowledgements, and a million ordinary messages by full tables, each handed over
# as soon as it is written. The proved node against a node in plain Rust with HashMaps, in one run, in turn. Of each the best of five, in
# microseconds; the goal is at most 1.00 of plain Rust's time.
set -eu
top=$(cd "$(dirname "$0")/../.." && pwd)
. "$top/bench/lay_out.sh"
libraries=$(grep "^artery_core:" "$top/crates.txt" | cut -d: -f2 | tr ' ' '\n' | grep "^artery_" | tr '\n' ' ')
lay_out node_bench "$top/bench/node/rattle_main.txt" "artery_base artery_text artery_machine artery_core" $libraries artery_core
rustc --edition 2021 -O -o "$work/hash_maps" "$top/bench/node/hash_maps.rs"
for _ in 1 2 3 4 5; do
    "$program" >> "$work/proved.txt"
    "$work/hash_maps" >> "$work/plain.txt"
done
counts() { cut -d' ' -f1,2 "$1"; }
counts "$work/proved.txt" > "$work/proved_counts.txt"
counts "$work/plain.txt" > "$work/plain_counts.txt"
cmp "$work/proved_counts.txt" "$work/plain_counts.txt"
paste -d' ' "$work/proved.txt" "$work/plain.txt" | awk '
    $1 == "fill" { next }
    !($1 in proved) { steps[++n] = $1; proved[$1] = $3; plain[$1] = $6 }
    { if ($3 < proved[$1]) proved[$1] = $3; if ($6 < plain[$1]) plain[$1] = $6 }
    END {
        for (i = 1; i <= n; i++) {
            step = steps[i]
            printf "%s: proved %d, plain Rust %d, time as a part of plain Rust\047s: %.2f\n", step, proved[step], plain[step], proved[step] / plain[step]
        }
    }'
