#!/bin/sh
# Times unions of contexts: they are to cost by their runs, and not by their dots.
# The program lies outside crates.txt, so that the gate doesn't run it; here it is proved and run in a copy.
set -eu
here=$(cd "$(dirname "$0")" && pwd)
work=$(mktemp -d)
trap 'rm -rf "$work"' EXIT
mkdir -p "$work/crates/unions/src" "$work/crates/unions/specs" "$work/crates/unions/proofs"
cp -r "$here/../../crates/dy_dots" "$work/crates/dy_dots"
cp "$here/main.rt.txt" "$work/crates/unions/src/main.rt"
: > "$work/crates/unions/specs/Lib.antt"
: > "$work/crates/unions/proofs/Lib.antt"
cp "$here/../../HANDLES" "$work/HANDLES"
grep '^dy_dots:' "$here/../../crates.txt" > "$work/crates.txt"
echo 'unions: dy_dots anyhow' >> "$work/crates.txt"
cd "$work/crates/unions"
rt run
