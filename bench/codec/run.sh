#!/bin/sh
# Encodes and decodes 1,000,000 messages with full tables, each name by index: the proved codec beside plain Rust with HashMaps, each
# best of five, the two programs three times in turn.
set -eu
top=$(cd "$(dirname "$0")/../.." && pwd)
. "$top/bench/lay_out.sh"
lay_out codec_bench "$top/bench/codec/codec_main.txt" "anyhow artery_base artery_tables artery_codec" artery_base artery_header artery_tables artery_codec
rustc --edition 2021 -O -o "$work/plain" "$top/bench/codec/plain.rs"
for _ in 1 2 3; do
    "$program" >> "$work/proved.txt"
    "$work/plain" >> "$work/plain.txt"
done
paste -d ' ' "$work/proved.txt" "$work/plain.txt" | awk '
    $1 != $5 || $2 != $6 { print "the sums differ"; exit 1 }
    NR == 1 || $3 < e { e = $3 }
    NR == 1 || $4 < d { d = $4 }
    NR == 1 || $7 < pe { pe = $7 }
    NR == 1 || $8 < pd { pd = $8 }
    END {
        printf "encode: proved %d ms, plain %d ms, ratio %.2f\n", e / 1000, pe / 1000, pe / e
        printf "decode: proved %d ms, plain %d ms, ratio %.2f\n", d / 1000, pd / 1000, pd / d
    }'
