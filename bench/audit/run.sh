#!/bin/sh
# Seconds and most memory of `artery audit` on journals of 24 MB in 64 parts, beside the same job in plain Rust with HashMaps in the same
# run: those who take stand first and wait for those who send, or the other way round. What both write is compared first, also with
# `--merge`. Wants the built program.
set -eu
top=$(cd "$(dirname "$0")/../.." && pwd)
work=$(mktemp -d)
trap 'rm -rf "$work"' EXIT
rustc --edition 2021 -O -o "$work/hash_maps" "$top/bench/audit/hash_maps.rs"
mkdir "$work/parts"
awk -v folder="$work/parts" 'BEGIN {
    for (p = 1; p <= 32; p++) {
        a[p] = "akka://A@a" p ".host:25520#" p
        b[p] = "akka://B@b" p ".host:25520#" (p + 1000000)
        begin("a", p, a[p])
        begin("b", p, b[p])
        line("a", p, a[p] " learnt " b[p])
        line("b", p, b[p] " learnt " a[p])
        line("a", p, a[p] " watched 1 akka://A@a" p ".host:25520/user/w akka://B@b" p ".host:25520/user/x")
    }
    # the last three lines of each pair take some 150 bytes
    most = 24000000 - 150 * 32
    for (n = 1; size < most; n++)
        for (p = 1; p <= 32 && size < most; p++) {
            line("a", p, a[p] " sent " b[p] " " n " 5 x 0102030405060708")
            line("a", p, a[p] " told " b[p] " 1 - akka://B@b" p ".host:25520/user/x 4 T 00ff" (n % 90 + 10))
            if (n % 3 != 0) line("b", p, b[p] " got " a[p] " 1 - akka://B@b" p ".host:25520/user/x 4 T 00ff" (n % 90 + 10))
            line("b", p, b[p] " took " a[p] " " n " 5 x 0102030405060708")
            # every eighth message is answered
            if (n % 8 == 0) {
                line("b", p, b[p] " sent " a[p] " " n / 8 " 5 y 01")
                line("a", p, a[p] " took " b[p] " " n / 8 " 5 y 01")
            }
        }
    for (p = 1; p <= 32; p++) {
        line("a", p, a[p] " closed " b[p] " unreachable")
        line("a", p, a[p] " terminated 1")
        line("a", p, a[p] " stopped")
    }
}
function begin(side, p, name) { file[side, p] = sprintf("%s/%s%02d", folder, side, p); line(side, p, "of " name); line(side, p, name " started") }
function line(side, p, text) { print text > file[side, p]; size += length(text) + 1 }'
for first in a b; do
    if [ $first = a ]; then cat "$work"/parts/a* "$work"/parts/b*; else cat "$work"/parts/b* "$work"/parts/a*; fi > "$work/journals"
    "$top/crates/artery/out/artery" audit < "$work/journals" > "$work/told"
    "$work/hash_maps" < "$work/journals" | cmp - "$work/told"
    "$top/crates/artery/out/artery" audit --merge < "$work/journals" > "$work/told"
    "$work/hash_maps" --merge < "$work/journals" | cmp - "$work/told"
    artery=$(python3 "$top/bench/measure.py" 5 "$work/journals" "$top/crates/artery/out/artery" audit)
    plain=$(python3 "$top/bench/measure.py" 5 "$work/journals" "$work/hash_maps")
    echo "$(stat -c %s "$work/journals") $artery $plain $first" | awk '{
        printf "64 parts, %s first, %.1f MB\n", $6 == "a" ? "who sends" : "who takes", $1 / 1e6
        printf "artery: %.3f s, %.1f times the input in memory\n", $2, $3 * 1024 / $1
        printf "Rust: %.3f s, %.1f times the input in memory\n", $4, $5 * 1024 / $1
        printf "time as a part of Rust\047s: %.2f\n", $2 / $4
    }'
done
