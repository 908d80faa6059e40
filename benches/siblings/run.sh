#!/bin/sh
# Proves, builds and runs the benchmark of rows with many siblings, in a folder of its own: times, and the most memory.
# usage: benches/siblings/run.sh [FOLDER]
set -eu
here=$(cd "$(dirname "$0")" && pwd)
top=$(cd "$here/../.." && pwd)
folder=${1:-$(mktemp -d)}
mkdir -p "$folder/crates"
for crate in dy_dots dy_siblings; do
    rm -rf "$folder/crates/$crate"
    cp -r "$top/crates/$crate" "$folder/crates/"
done
mkdir -p "$folder/crates/bench_siblings/src"
cp "$here/main.rt.txt" "$folder/crates/bench_siblings/src/main.rt"
grep -E '^dy_(dots|siblings):' "$top/crates.txt" > "$folder/crates.txt"
echo 'bench_siblings: dy_siblings dy_dots anyhow' >> "$folder/crates.txt"
cp "$top/HANDLES" "$folder/HANDLES"
cd "$folder/crates/bench_siblings"
rt run
cc -O2 -o "$folder/measured" "$here/../measured.c"
"$folder/measured" 600 8000 "$folder/out" out/bench_siblings | awk '{ print $4 " KB at most" }'
