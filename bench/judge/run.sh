#!/bin/sh
# Seconds and most memory of `artery check journal` on journals of 24 MB, of one pair of incarnations and of ten thousand, beside the
# same job in plain Rust with HashMaps in the same run. What both write is compared first. Wants the built program.
set -eu
top=$(cd "$(dirname "$0")/../.." && pwd)
work=$(mktemp -d)
trap 'rm -rf "$work"' EXIT
rustc --edition 2021 -O -o "$work/hash_maps" "$top/bench/judge/hash_maps.rs"
for pairs in 1 10000; do
    awk -v pairs=$pairs 'BEGIN {
        for (p = 1; p <= pairs; p++) {
            a[p] = "akka://A@a" p ".host:25520#" p
            b[p] = "akka://B@b" p ".host:25520#" (p + 1000000)
            line(a[p] " started")
            line(b[p] " started")
            line(a[p] " learnt " b[p])
            line(b[p] " learnt " a[p])
            line(a[p] " watched 1 akka://A@a" p ".host:25520/user/w akka://B@b" p ".host:25520/user/x")
        }
        # the last three lines of each pair take some 150 bytes
        most = 24000000 - 150 * pairs
        for (n = 1; size < most; n++)
            for (p = 1; p <= pairs && size < most; p++) {
                line(a[p] " sent " b[p] " " n " 5 x 0102030405060708")
                line(a[p] " told " b[p] " 1 - akka://B@b" p ".host:25520/user/x 4 T 00ff" (n % 90 + 10))
                if (n % 3 != 0) line(b[p] " got " a[p] " 1 - akka://B@b" p ".host:25520/user/x 4 T 00ff" (n % 90 + 10))
                line(b[p] " took " a[p] " " n " 5 x 0102030405060708")
            }
        for (p = 1; p <= pairs; p++) {
            line(a[p] " closed " b[p] " unreachable")
            line(a[p] " terminated 1")
            line(a[p] " stopped")
        }
    }
    function line(text) { print text; size += length(text) + 1 }' > "$work/journal"
    "$top/crates/artery/out/artery" check journal < "$work/journal" > "$work/told"
    "$work/hash_maps" < "$work/journal" | cmp - "$work/told"
    artery=$(python3 "$top/bench/measure.py" 5 "$work/journal" "$top/crates/artery/out/artery" check journal)
    plain=$(python3 "$top/bench/measure.py" 5 "$work/journal" "$work/hash_maps")
    echo "$(stat -c %s "$work/journal") $artery $plain $pairs" | awk '{
        printf "%d pairs, %.1f MB\n", $6, $1 / 1e6
        printf "artery: %.3f s, %.1f times the input in memory\n", $2, $3 * 1024 / $1
        printf "Rust: %.3f s, %.1f times the input in memory\n", $4, $5 * 1024 / $1
        printf "time as a part of Rust\047s: %.2f\n", $2 / $4
    }'
done
