#!/usr/bin/env bash
# Times push/pop pairs of the proved pool and of the same protocol in plain Rust: nanoseconds for a pair of
# each thread.
set -eu
here=$(cd "$(dirname "$0")" && pwd)
scratch=${1:-/tmp/bench}
room=$(mktemp -d)
trap 'rm -rf "$room"' EXIT
rustc --edition 2021 -C opt-level=3 -C target-cpu=x86-64-v2 -C panic=abort -C lto=fat -C codegen-units=1 -o "$room/plain" "$here/plain.rs"
program=$(python3 "$here/../workspace.py" pool "$scratch" | tail -1)
for _ in 1 2 3; do
  "$program" >> "$room/proved.txt"
  "$room/plain" >> "$room/plain.txt"
  "$room/plain" release >> "$room/release.txt"
done
python3 "$here/times.py" "$room"
