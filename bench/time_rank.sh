#!/bin/sh
# Times `ranks` on records of ten million events: [SCRATCH].
set -e
here=$(cd "$(dirname "$0")" && pwd)
"$(python3 "$here/workspace.py" rank "${1:-/tmp/bench}" | tail -1)"
