#!/usr/bin/env bash
# Seconds and peak memory of `verify` on sources of 64, 512 and 4,096 functions, on one function of 50 to 200 additions in a
# row, of 100 to 1,600 statements, of ten `if`s between statements, of 32,000 bytes of statements that owe nothing, and on a source of a
# million bytes that is refused at its last word. Its argument is the built program.
set -eu
program=$1
here=$(cd "$(dirname "$0")" && pwd)
folder=$(mktemp -d)
trap 'rm -rf "$folder"' EXIT
for kind in sums loops; do
  for count in 64 512 4096; do
    python3 "$here/sources.py" "$kind" "$count" "$folder/s" "$folder/p"
    python3 "$here/measure.py" "$kind $count" "$program" "$folder/s" "$folder/p"
  done
done
for made in "additions 50" "additions 100" "additions 200" "statements 100" "statements 400" "statements 1600" "branches 50" "flat 32000" "long 1040000"; do
  read -r kind count <<< "$made"
  python3 "$here/sources.py" "$kind" "$count" "$folder/s" "$folder/p"
  python3 "$here/measure.py" "$made" "$program" "$folder/s" "$folder/p"
done
