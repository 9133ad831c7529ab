#!/bin/sh
# Times the writing of reports, on the files that make_inputs.sh wrote.
set -e
here=$(cd "$(dirname "$0")" && pwd)
scratch=${1:-/tmp/bench}
"$scratch/generate" 2500000 "$scratch/road2500000"
program=$(python3 "$here/workspace.py" writer "$scratch" -- "$scratch/road10000.gr" | tail -1)
"$program" "$scratch/road2500000.gr"
"$program" "$scratch/road1000000.gr" walks
