#!/bin/sh
# Proves and builds the benchmark of copies, and runs both forms, shared and deep: their time, and the most memory.
# usage: benches/sharing/run.sh [FOLDER]
set -eu
here=$(cd "$(dirname "$0")" && pwd)
folder=${1:-$(mktemp -d)}
crate="$folder/crates/bench_sharing"
mkdir -p "$crate/src"
cp "$here/main.rt.txt" "$crate/src/main.rt"
printf 'bench_sharing: anyhow\n' > "$folder/crates.txt"
cp "$here/../../HANDLES" "$folder/HANDLES"
cd "$crate"
rt run
for form in "" deep; do
    echo "${form:-shared}:"
    python3 -c 'import resource, subprocess, sys
subprocess.run(sys.argv[1:], check=True)
print(resource.getrusage(resource.RUSAGE_CHILDREN).ru_maxrss // 1024, "MB at most")' out/bench_sharing $form
done
