#!/bin/sh
# Seconds, MB/s and most memory of `artery show` on 64 MB of ordinary frames of 100 bytes, and of 65,000 bytes,
# beside the same job in plain C in the same run. What both write is compared first, and then thrown away.
# The goal beside each ratio is what it should reach; the script does not fail below it. Wants the built program.
set -eu
top=$(cd "$(dirname "$0")/../.." && pwd)
work=$(mktemp -d)
trap 'rm -rf "$work"' EXIT
cc -O2 -march=x86-64-v2 -o "$work/plain" "$top/bench/show/plain.c"
for size in 100 65000; do
/usr/bin/env python3 - "$work/capture" "$size" <<'PY'
import struct, sys
size = int(sys.argv[2])
frames = 64_000_000 // (size + 4)
def name(text):
    return struct.pack("<H", len(text)) + text
with open(sys.argv[1], "wb") as out:
    out.write(b"AKKA\x02")
    literals = name(b"") + name(b"akka://B@h2:25520/user/x") + name(b"T")
    for k in range(frames):
        payload = struct.pack(">Q", k * 2654435761 % 2**64) * (size // 8)
        payload = payload[: size - 28 - len(literals)]
        header = struct.pack("<BBBBQiIII", 0, 0, 0, 0, 1, 4, 28, 30, 56)
        envelope = header + literals + payload
        assert len(envelope) == size
        out.write(struct.pack("<I", size) + envelope)
PY
"$top/crates/artery/out/artery" show < "$work/capture" > "$work/shown"
"$work/plain" < "$work/capture" | cmp - "$work/shown"
artery=$(python3 "$top/bench/measure.py" 5 "$work/capture" "$top/crates/artery/out/artery" show)
plain=$(python3 "$top/bench/measure.py" 5 "$work/capture" "$work/plain")
echo "$(stat -c %s "$work/capture") $artery $plain $size" | awk '{
    printf "frames of %d bytes\n", $6
    printf "artery: %.3f s, %.0f MB/s, %d KiB at most\n", $2, $1 / 1e6 / $2, $3
    printf "C: %.3f s, %.0f MB/s, %d KiB at most\n", $4, $1 / 1e6 / $4, $5
    printf "throughput as a part of C\047s: %.2f, goal 1.00\n", $4 / $2
}'
done
