#!/bin/sh
# Ten million rounds of accept, pump and ack: the proved Outbound against std's VecDeque in plain Rust, best of five each, in one run.
set -eu
top=$(cd "$(dirname "$0")/../.." && pwd)
. "$top/bench/lay_out.sh"
lay_out delivery_bench "$top/bench/delivery/rattle_main.txt" "artery_base artery_delivery" artery_base artery_delivery
rustc -O -o "$work/vec_deque" "$top/bench/delivery/vec_deque.rs"
nanoseconds() {
    best=
    for _ in 1 2 3 4 5; do
        start=$(date +%s%N)
        "$1" >"$2"
        taken=$(($(date +%s%N) - start))
        if [ -z "$best" ] || [ "$taken" -lt "$best" ]; then best=$taken; fi
    done
    echo "$best"
}
proved=$(nanoseconds "$program" "$work/proved.txt")
plain=$(nanoseconds "$work/vec_deque" "$work/plain.txt")
cmp "$work/proved.txt" "$work/plain.txt"
echo "proved: $((proved / 1000000)) ms, VecDeque: $((plain / 1000000)) ms, ratio: $((proved * 100 / plain)) %"
