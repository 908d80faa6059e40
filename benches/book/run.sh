#!/bin/sh
# Proves, builds and runs the benchmark of dy_book, in a folder of its own: a million fetches, 2,000 blind puts of one
# key, 100,000 siblings of 5,000 keys, 100,000 versions of 5,000 keys and of one key, with the close after each, and the
# most memory of each. 'out/bench_book crowd' in FOLDER/crates/bench_book makes the 100,000 siblings of one key: minutes.
# usage: benches/book/run.sh [FOLDER]
set -eu
here=$(cd "$(dirname "$0")" && pwd)
top=$(cd "$here/../.." && pwd)
folder=${1:-$(mktemp -d)}
mkdir -p "$folder/crates"
needed="dy_dots dy_siblings dy_ring dy_preference dy_core dy_index dy_shares dy_book"
rm -f "$folder/crates.txt"
for crate in $needed; do
    rm -rf "$folder/crates/$crate"
    cp -r "$top/crates/$crate" "$folder/crates/"
    grep "^$crate:" "$top/crates.txt" >> "$folder/crates.txt"
done
echo "bench_book: $needed" >> "$folder/crates.txt"
cp "$top/HANDLES" "$folder/HANDLES"
rm -rf "$folder/crates/bench_book"
mkdir -p "$folder/crates/bench_book"
cp -r "$here/src" "$here/proofs" "$folder/crates/bench_book/"
# The gate reads each .rt and .antt file, so the benchmark's have another ending here.
find "$folder/crates/bench_book" -name '*.txt' | while read -r file; do mv "$file" "${file%.txt}"; done
cd "$folder/crates/bench_book"
# Without a word the program does nothing.
(cd "$folder" && rt ci)
# (A process that Python starts begins with Python's own memory, so it would be told as the most.)
cc -O2 -o "$folder/measured" "$here/../measured.c"
for work in fetches blind whole siblings keys chain; do
    "$folder/measured" 600 8000 "$folder/out" out/bench_book "$work" | awk '{ print $4 " KB at most" }'
    cat "$folder/out"
done
