#!/bin/sh
# 262,144 remote watches added, half of them removed one by one, the others removed and added again, one origin of a thousand forgotten, all
# actors stopped: the proved Watcher against plain Rust with HashMaps, in one run, in turn. Of each step the best of five, in microseconds.
set -eu
top=$(cd "$(dirname "$0")/../.." && pwd)
. "$top/bench/lay_out.sh"
lay_out watch_bench "$top/bench/watch/rattle_main.txt" "artery_base artery_text artery_watch" artery_base artery_text artery_watch
rustc -O -o "$work/hash_maps" "$top/bench/watch/hash_maps.rs"
for _ in 1 2 3 4 5; do
    "$program" >> "$work/proved.txt"
    "$work/hash_maps" >> "$work/plain.txt"
done
counts() { cut -d' ' -f1,2 "$1"; }
counts "$work/proved.txt" > "$work/proved_counts.txt"
counts "$work/plain.txt" > "$work/plain_counts.txt"
cmp "$work/proved_counts.txt" "$work/plain_counts.txt"
paste -d' ' "$work/proved.txt" "$work/plain.txt" | awk '
    !($1 in proved) { steps[++n] = $1; proved[$1] = $3; plain[$1] = $6 }
    { if ($3 < proved[$1]) proved[$1] = $3; if ($6 < plain[$1]) plain[$1] = $6 }
    END {
        for (i = 1; i <= n; i++) {
            step = steps[i]
            printf "%-14s proved: %7d, HashMaps: %7d, time as a part of HashMaps\047: %.2f\n", step, proved[step], plain[step], proved[step] / plain[step]
        }
    }'
