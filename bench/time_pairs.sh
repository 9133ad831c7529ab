#!/bin/sh
# Times many pairs whose search reaches about 1,000 nodes each, on a road-like network of 10^6 nodes without
# timetables, and the same in plain Rust.
set -e
here=$(cd "$(dirname "$0")" && pwd)
scratch=${1:-/tmp/bench}
mkdir -p "$scratch"
rustc --edition 2024 -O "$here/generate.rs" -o "$scratch/generate"
rustc --edition 2024 -O -C target-cpu=x86-64-v2 "$here/hand/main.rs" -o "$scratch/hand"
"$scratch/generate" 2500000 "$scratch/road2500000"
"$scratch/hand" make_pairs "$scratch/road2500000.gr" "$scratch/road.p2p" 10000 1000
program=$(python3 "$here/workspace.py" pairs "$scratch" -- "$scratch/road2500000.gr" "$scratch/road.p2p" | tail -1)
for _ in 1 2 3; do
    "$scratch/hand" pairs "$scratch/road2500000.gr" "$scratch/road.p2p" - 0 /dev/null
    "$program" "$scratch/road2500000.gr" "$scratch/road.p2p"
done
