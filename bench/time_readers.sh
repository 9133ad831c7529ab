#!/bin/sh
# Times the readers and a plain Rust reader on the files that make_inputs.sh wrote.
set -e
here=$(cd "$(dirname "$0")" && pwd)
scratch=${1:-/tmp/bench}
rustc -O "$here/peer.rs" -o "$scratch/peer"
program=$(python3 "$here/workspace.py" readers "$scratch" -- gr "$scratch/road10000.gr" | tail -1)
for graph in road10000 road100000 road1000000 road10000000 odd10000000; do
    echo "== $graph"
    "$program" gr "$scratch/$graph.gr"
    "$scratch/peer" "$scratch/$graph.gr"
done
