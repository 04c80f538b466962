#!/bin/sh
# run.sh [BINARY [COUNT [FIRST]]]
# COUNT random networks (300) of each kind, from number FIRST (1) on, each played by BINARY (the program that is built here) with `replay`
# and with `replay --moments`; `check journal` has to answer `lawful` on every journal. Prints how many were lawful and what they tell;
# its status is 1 where any was judged otherwise. `networks.py script BINARY KIND NUMBER` writes the script of one.
set -eu
top=$(cd "$(dirname "$0")/../.." && pwd)
exec python3 "$top/tools/random_networks/networks.py" judge "${1:-$top/crates/artery/out/artery}" "${3:-1}" "${2:-300}"
