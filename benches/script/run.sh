#!/bin/sh
# Proves, builds and runs the benchmark of long scripts, in a folder of its own.
# usage: benches/script/run.sh [FOLDER]
set -eu
here=$(cd "$(dirname "$0")" && pwd)
top=$(cd "$here/../.." && pwd)
folder=${1:-$(mktemp -d)}
mkdir -p "$folder/crates/bench_script/src"
for crate in dy_dots dy_siblings dy_ring dy_preference dy_core dy_script; do
    rm -rf "$folder/crates/$crate"
    cp -r "$top/crates/$crate" "$folder/crates/"
done
cp "$here/main.rt.txt" "$folder/crates/bench_script/src/main.rt"
grep -E '^dy_(dots|siblings|ring|preference|core|script):' "$top/crates.txt" > "$folder/crates.txt"
echo 'bench_script: dy_script anyhow' >> "$folder/crates.txt"
cp "$top/HANDLES" "$folder/HANDLES"
cd "$folder/crates/bench_script"
rt run
