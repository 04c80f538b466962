#!/bin/sh
# run.sh [BINARY [ROUNDS]]
# Processor seconds and most memory of the proved program (BINARY, by default the one that is built here) beside the same network in plain
# Rust with HashMaps, in one run, in turn, the best of ROUNDS. What both write is compared first.
# The goals: at least 0.80 of plain Rust's speed where 200,000 and 400,000 messages are sent, twice the script in twice the time, and at
# most twice plain Rust's memory.
set -eu
top=$(cd "$(dirname "$0")/../.." && pwd)
binary=${1:-$top/crates/artery/out/artery}
rounds=${2:-5}
work=$(mktemp -d)
trap 'rm -rf "$work"' EXIT
rustc --edition 2021 -O -o "$work/plain" "$top/bench/network/plain/main.rs"

# sends COUNT PAYLOAD: messages in rounds of 1,000, each handed over before the next.
sends() {
    awk -v count="$1" -v payload="$2" 'BEGIN {
        print "start akka://A@h1:25520 1\nstart akka://B@h2:25520 2\nat 1 pair akka://B@h2:25520\npass 9"
        for (i = 1; i <= count; i++) {
            print "at 1 send akka://B@h2:25520 5 x " payload
            if (i % 1000 == 0) print "pass 9"
        }
    }'
}

# redials COUNT: so many connections; each time both of a node are cut, and dialed anew.
redials() {
    awk -v count="$1" 'BEGIN {
        print "start akka://A@h1:25520 1\nstart akka://B@h2:25520 2\nat 1 pair akka://B@h2:25520\npass 9"
        for (made = 4; made < count; made += 2) print "cut 1 all\nend 1 all\ntick 1 " 1000 * ++turn "\npass 4"
    }'
}

# days COUNT: a user of three nodes has so many days, each with nodes of its own: tells, watches, ticks, cut connections, a restart.
days() {
    awk -v count="$1" 'BEGIN {
        for (day = 1; day <= count; day++) {
            for (k = 1; k <= 3; k++) {
                uid[k] = 10 * day + k
                node[k] = "akka://" substr("ABC", k, 1) "@h" k ".day" day ":25520"
                print "start " node[k] " " uid[k]
            }
            print "at " uid[1] " pair " node[2] "\nat " uid[2] " pair " node[3] "\npass 9"
            for (x = 1; x <= 200; x++) print "at " uid[2] " spawn /user/x" x
            for (r = 1; r <= 100; r++) {
                for (t = 1; t <= 10; t++) print "at " uid[1] " tell " node[2] " - " node[2] "/user/x" t " 4 T 0102"
                for (t = 1; t <= 10; t++) print "at " uid[2] " tell " node[3] " - " node[3] "/user/y" t " 4 T 0102"
                for (x = 2 * r - 1; x <= 2 * r; x++) print "at " uid[1] " watch /user/w " node[2] "/user/x" x
                for (k = 1; k <= 3; k++) print "tick " uid[k] " " 1000 * r
                print "pass 9"
                if (r % 20 == 0) print "cut " uid[1] " all\nend " uid[1] " all"
                if (r == 50) {
                    print "stop " uid[3] "\nend " uid[3] " all"
                    print "start " node[3] " " (uid[3] = 10 * day + 4) "\ncut " uid[2] " all\nend " uid[2] " all"
                }
            }
            for (k = 1; k <= 3; k++) print "stop " uid[k]
        }
    }'
}

# measured NAME INPUT WORD..
measured() {
    name=$1 input=$2
    shift 2
    "$binary" "$@" < "$input" > "$work/told"
    "$work/plain" "$@" < "$input" | cmp - "$work/told"
    told=$(python3 "$top/bench/in_turn.py" "$rounds" "$input" "$binary" "$work/plain" "$@")
    echo "$told" | awk -v name="$name" '{
        printf "%-42s artery: %.2f s, %d MiB; Rust: %.2f s, %d MiB; speed as a part of Rust\047s: %.2f, memory: %.2f times\n",
            name, $1, $3 / 1024, $2, $4 / 1024, $2 / $1, $3 / $4
    }'
    seconds=${told%% *}
}

sends 200000 0102 > "$work/sends"
sends 400000 0102 > "$work/more_sends"
sends 25000 "$(head -c 2048 /dev/zero | tr '\0' 5)" > "$work/long_sends"
redials 100000 > "$work/redials"
days 20 > "$work/days"
"$work/plain" script 10000 > "$work/generated"
measured "200,000 messages of two bytes" "$work/sends" replay
once=$seconds
measured "400,000 messages of two bytes" "$work/more_sends" replay
awk -v once="$once" -v twice="$seconds" 'BEGIN { printf "twice the script takes %.2f times as long\n", twice / once }'
measured "25,000 messages of 1,024 bytes" "$work/long_sends" replay
measured "the same with their bytes" "$work/long_sends" replay --bytes
measured "200,000 messages of two bytes, with bytes" "$work/sends" replay --bytes
measured "200,000 messages of two bytes, moments" "$work/sends" replay --moments
measured "gen 10000" /dev/null gen 10000
measured "the replay of its script" "$work/generated" replay
measured "100,000 connections, cut and dialed anew" "$work/redials" replay
measured "twenty days of three nodes" "$work/days" replay
