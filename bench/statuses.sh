#!/usr/bin/env bash
# The exit status of one run of each status that files, words and the output can bring about. Its argument is the built
# program. Statuses 7 and 8 need a file past its bound and a machine without memory: 7 is tried, 8 is not.
set -u
program=$(realpath "$1")
folder=$(mktemp -d)
trap 'rm -rf "$folder"' EXIT
cd "$folder" || exit 1
printf '#[ensures(result@ <= 1)]\nfn one() -> u8 { 1 }\n' > good.rs
printf 'creusot-proofs 1\nproof 1 one\nlin 1:goal\nend\n' > good.proofs
printf 'creusot-proofs 1\nproof 1 one\nlin one:goal\nend\n' > bad.proofs
printf 'fn one() -> u8 { 1 \n' > bad.rs
head -c 1048577 /dev/zero | tr '\0' ' ' > long.rs
failed=0
try() {
  wanted=$1
  shift
  "$program" "$@" > out.txt 2> err.txt
  found=$?
  [ "$found" = "$wanted" ] && [ ! -s err.txt ] || { echo "status $found in place of $wanted: $*"; failed=1; }
}
try 0 verify good.rs --proofs good.proofs
try 0 list good.rs
try 1 verify good.rs
try 2 verify
try 2 --help
try 3 verify bad.rs
try 3 verify bad.rs --proofs missing.proofs
try 4 verify good.rs --proofs bad.proofs
try 5 verify missing.rs
try 5 verify good.rs --proofs missing.proofs
try 7 verify long.rs
"$program" list good.rs > /dev/full 2> err.txt
[ $? = 6 ] || { echo "a full output is not status 6"; failed=1; }
[ $failed = 0 ] && echo "all statuses are as they should be"
exit $failed
