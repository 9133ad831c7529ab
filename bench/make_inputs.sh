#!/bin/sh
# Writes the inputs of the timings.
set -e
here=$(cd "$(dirname "$0")" && pwd)
scratch=${1:-/tmp/bench}
mkdir -p "$scratch"
rustc -O "$here/generate.rs" -o "$scratch/generate"
for arcs in 10000 100000 1000000 10000000; do
    "$scratch/generate" "$arcs" "$scratch/road$arcs"
done
"$scratch/generate" 10000000 "$scratch/odd10000000" odd
