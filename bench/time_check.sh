#!/bin/sh
# Times the checker: GRAPH, or GRAPH REPORT SOURCES.
set -e
here=$(cd "$(dirname "$0")" && pwd)
scratch=${BENCH:-/tmp/bench}
mkdir -p "$scratch"
printf 'p sp 4 5\na 1 2 7\na 1 3 2\na 3 2 3\na 2 4 1\na 3 4 9\n' > "$scratch/four.gr"
program=$(python3 "$here/workspace.py" check "$scratch" -- "$scratch/four.gr" | tail -1)
"$program" "$@"
