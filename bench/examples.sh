#!/usr/bin/env bash
# Verifies each program of crates/creusot_cli/data with its proofs. Its argument is the built program.
set -u
program=$(realpath "$1")
cd "$(dirname "$0")/../crates/creusot_cli/data" || exit 1
failed=0
for source in *.rs; do
  "$program" verify "$source" --proofs "${source%.rs}.proofs" > /dev/null || { echo "not verified: $source"; failed=1; }
done
[ $failed = 0 ] && echo "all examples are verified"
exit $failed
