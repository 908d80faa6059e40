#!/bin/sh
# Proves and builds the benchmark of several clusters in one process, in a folder of its own, and runs it three times:
# 8,000 gets and puts by eight clients over 64 keys, in one cluster and in 2, 4 and 8, each key in that of its hash.
# With --try it is compiled without its proof and makes few turns, which tells that it runs, and no time.
# usage: benches/clusters/run.sh [--try] [FOLDER]
set -eu
here=$(cd "$(dirname "$0")" && pwd)
top=$(cd "$here/../.." && pwd)
how=run
if [ "${1:-}" = --try ]; then
    how=try
    shift
fi
folder=${1:-$(mktemp -d)}
mkdir -p "$folder/crates/bench_clusters/src"
rm -f "$folder/crates.txt"
# What dy_clients stands on, and what that stands on: each line of crates.txt stands below those that it names.
needed=$(tac "$top/crates.txt" | awk -F: -v needed=' dy_clients ' 'index(needed, " " $1 " ") { needed = needed $2 " "; print $1 }')
for crate in $needed; do
    rm -rf "$folder/crates/$crate"
    cp -r "$top/crates/$crate" "$folder/crates/"
    grep "^$crate:" "$top/crates.txt" >> "$folder/crates.txt"
done
echo 'bench_clusters: dy_clients dy_coord' >> "$folder/crates.txt"
cp "$top/HANDLES" "$folder/HANDLES"
cp "$here/main.rt.txt" "$folder/crates/bench_clusters/src/main.rt"
cd "$folder/crates/bench_clusters"
if [ "$how" = try ]; then
    rt try -- few
    exit
fi
rt run
for _ in 1 2 3; do
    out/bench_clusters
done
