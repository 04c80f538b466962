#!/bin/sh
# MB/s of feeding a stream of 256 MiB in pieces of 65,536 bytes and taking its frames, beside the same loop
# in plain C in the same run, and the same where many frames are held before they are taken.
set -eu
top=$(cd "$(dirname "$0")/../.." && pwd)
. "$top/bench/lay_out.sh"
lay_out frame_speed "$top/bench/frame/frame_main.txt" "artery_base artery_frame" artery_base artery_frame
cc -O2 -march=x86-64-v2 -o "$work/plain" "$top/bench/frame/plain.c"
pieces=4096
best() { # program, frame length, group: seconds, best of five
    t=999
    for _ in 1 2 3 4 5; do
        a=$(date +%s%N); "$1" "$2" $pieces "$3" > "$work/out.$4"; b=$(date +%s%N)
        t=$(awk "BEGIN { x = ($b - $a) / 1e9; print (x < $t) ? x : $t }")
    done
    echo "$t"
}
for length in 100 65536; do
    for group in 1 16 256 4096; do
        r=$(best "$program" $length $group rattle)
        c=$(best "$work/plain" $length $group c)
        cmp "$work/out.rattle" "$work/out.c"
        awk "BEGIN { m = $pieces * 65536 / 1e6; printf \"frames of %d, taken after %d pieces: %.0f MB/s, in C %.0f MB/s, ratio %.2f\n\", $length, $group, m / $r, m / $c, $c / $r }"
    done
done
