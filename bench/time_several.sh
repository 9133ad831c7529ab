#!/bin/sh
# Times the engine of several threads with many settings, that of one thread, and MultiQueues in plain Rust,
# on road-like graphs with timetables.
set -e
here=$(cd "$(dirname "$0")" && pwd)
scratch=${1:-/tmp/bench}
mkdir -p "$scratch"
rustc --edition 2024 -O "$here/generate.rs" -o "$scratch/generate"
rustc --edition 2024 -O -C target-cpu=x86-64-v2 "$here/hand/main.rs" -o "$scratch/hand"
printf 'p aux sp ss 1\ns 1\n' > "$scratch/one.ss"
for arcs in 250000 2500000; do
    "$scratch/generate" "$arcs" "$scratch/road$arcs"
done
program=$(python3 "$here/workspace.py" several "$scratch" -- "$scratch/road250000.gr" "$scratch/road250000.tp" 0 0 2 1 1 32 | tail -1)
for arcs in 250000 2500000; do
    graph="$scratch/road$arcs"
    echo "== road$arcs"
    "$scratch/hand" run heap "$graph.gr" "$scratch/one.ss" "$graph.tp" 0 1 /dev/null
    for workers in 0 1 2 4; do
        for heaps in 2 8; do
            for batch in 1 32; do
                "$program" "$graph.gr" "$graph.tp" 0 "$workers" "$heaps" 3 "$batch" 65536
            done
        done
        for method in multiqueue multiqueue_of_buckets; do
            [ "$workers" -eq 0 ] || "$scratch/hand" run "$method" "$graph.gr" "$scratch/one.ss" "$graph.tp" 0 "$workers" /dev/null
        done
    done
done
