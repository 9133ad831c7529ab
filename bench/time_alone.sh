#!/bin/sh
# Times the engine of one thread and searches in plain Rust, in turns, on road-like graphs of 10^5, 10^6 and
# 10^7 nodes, plain and with timetables.
set -e
here=$(cd "$(dirname "$0")" && pwd)
scratch=${1:-/tmp/bench}
mkdir -p "$scratch"
rustc --edition 2024 -O "$here/generate.rs" -o "$scratch/generate"
rustc --edition 2024 -O -C target-cpu=x86-64-v2 "$here/hand/main.rs" -o "$scratch/hand"
for arcs in 250000 2500000 25000000; do
    "$scratch/generate" "$arcs" "$scratch/road$arcs"
done
program=$(python3 "$here/workspace.py" alone "$scratch" -- "$scratch/road250000.gr" "$scratch/road250000.tp" | tail -1)
python3 "$here/alone_rounds.py" 40 "$scratch/hand" "$program" "$scratch/road250000"
python3 "$here/alone_rounds.py" 8 "$scratch/hand" "$program" "$scratch/road2500000"
python3 "$here/alone_rounds.py" 3 "$scratch/hand" "$program" "$scratch/road25000000"
