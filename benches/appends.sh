#!/bin/sh
# Runs the benchmark of dy_shares, a million calls of each kind, as a program that is proved first, in a
# copy of the repository.
here=$(cd "$(dirname "$0")" && pwd)
top=$(cd "$here/.." && pwd)
work=$(mktemp -d)
trap 'rm -rf "$work"' EXIT
mkdir -p "$work/crates"
cp "$top/HANDLES" "$work/"
needed="dy_dots dy_siblings dy_ring dy_preference dy_core dy_shares"
for crate in $needed; do
    cp -r "$top/crates/$crate" "$work/crates/"
    grep "^$crate:" "$top/crates.txt" >> "$work/crates.txt"
done
cp -r "$here/appends" "$work/crates/"
# The gate reads each .rt and .antt file, so the benchmark's have another ending here.
find "$work/crates/appends" -name '*.txt' | while read -r file; do mv "$file" "${file%.txt}"; done
echo "appends: $needed" >> "$work/crates.txt"
cd "$work/crates/appends" && rt run
