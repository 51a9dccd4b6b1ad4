#!/usr/bin/env bash
# Where the time of the gate goes. Without an argument: runs `rt ci` at the top of the repository and prints processor
# seconds of each crate's proof, edits and tests; what the gate says goes to gate.txt in a new folder under /tmp. With
# --anew everything is proved from nothing, whatever earlier runs on this machine passed and kept.
# With the name of a crate: its dearest functions, by the bytes that the last `rt check` there has kept of each (one MB is
# some 1.4 processor seconds, paid for the proof, once more where the crate has edits, and by each edit that touches it).
set -eu
top=$(cd "$(dirname "$0")/.." && pwd)
if [ $# = 0 ] || [ "$1" = --anew ]; then
  cd "$top"
  folder=$(mktemp -d /tmp/gate-XXXXXX)
  echo "what the gate says: $folder/gate.txt"
  exec python3 "$top/bench/gate.py" "$folder/gate.txt" "$@"
fi
kept="$top/crates/$1/out/incremental"
[ -d "$kept" ] || { echo "nothing is kept of $1: run rt check in crates/$1 first" >&2; exit 1; }
exec python3 "$top/bench/functions.py" "$kept" 30
