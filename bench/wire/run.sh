#!/bin/sh
# MB/s of a cursor over 64 MiB of small fields, and over 64 MiB of payloads of 64 KiB, beside plain Rust (rustc -O) in
# the same run: the best of five walks of each program, in three turns of both. The goal beside a ratio is what it
# should reach; the script does not fail below it.
set -eu
top=$(cd "$(dirname "$0")/../.." && pwd)
. "$top/bench/lay_out.sh"
lay_out wire_bench "$top/bench/wire/wire_main.txt" "anyhow artery_base artery_wire" artery_base artery_wire
rustc -O -o "$work/plain" "$top/bench/wire/plain.rs"
for _ in 1 2 3; do
    "$program"
    "$work/plain"
done | awk '{
    name = $2 $3 " " $4 $5 $6
    told[$1 $2] = name
    rate = $(NF - 1)
    if (rate > best[$1 $2]) best[$1 $2] = rate
} END {
    split("small: large:", kinds, " ")
    goal["small:"] = ", goal 0.75"
    for (k = 1; k <= 2; k++) {
        kind = kinds[k]
        if (told["cursor" kind] != told["plain" kind]) { print "they read otherwise: " kind; exit 1 }
        printf "%s cursor %.0f MB/s, plain Rust %.0f MB/s, throughput as a part of plain Rust\047s: %.2f%s\n", kind, best["cursor" kind], best["plain" kind], best["cursor" kind] / best["plain" kind], goal[kind]
    }
}'
