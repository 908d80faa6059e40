#!/usr/bin/env bash
# Tries the programs of this folder over the libraries that `rt ci` left: one fails where it is taken,
# or is refused for another cause than its second line says, and the control where it is refused.
# Use: docs/refused/try.sh [--behind P] [NAME..]; without names it tries all. With --behind it first waits
# while the process P runs, and with it an `rt ci` that builds the libraries. The last line is 'N passed, M failed'.
set -u
behind=
if [ "${1:-}" = --behind ]; then
    behind=${2:?--behind takes the number of a process}
    shift 2
fi
here=$(cd "$(dirname "$(readlink -f "${BASH_SOURCE[0]}")")" && pwd)
top=$(cd "$here/../.." && pwd)
kit=$(dirname "$(rt doc)") || exit 2
folder=$(mktemp -d) || exit 2
trap 'rm -rf "$folder"' EXIT
mkdir "$folder/src"

# The words that `rt check` gives to rattle, for a crate over dy_shares and dy_book.
words=(check --crate-name refused src/lib.rt --jobs 1 --links refused=)
words+=(--antt-project "$kit/rattle/logic/antt-project.json" --logic-built "$kit/logic_built")
words+=(--extern "std=$kit/rlibs/std.rlib" -L "dependency=$kit/rlibs")
for crate in dy_dots dy_siblings dy_ring dy_preference dy_core dy_index dy_shares dy_book; do
    library=$top/crates/$crate/out/rlib/$crate.rlib
    # (What stood here before that rt ci began is taken away by it.)
    while [ -n "$behind" ] && kill -0 "$behind" 2>/dev/null; do
        sleep 3
        if [ -d "$library" ] && [ "$(dirname "$library")" -nt "$folder/src" ]; then
            break
        fi
    done
    if [ ! -d "$library" ]; then
        echo "the library of $crate is not built: run rt ci first"
        echo "0 passed, 1 failed"
        exit 1
    fi
    words+=(--extern "$crate=$library" -L "dependency=$(dirname "$library")")
done

# Checks the folder's program. (What rt ci makes is whole a moment after its folder stands here.)
check() {
    local tries=20
    until (cd "$folder" && "$kit/bin/rattle" "${words[@]}" "$@") >"$folder/said" 2>&1 ||
        [ -z "$behind" ] || [ $((tries -= 1)) = 0 ] || ! grep -q 'as after an interrupted copy' "$folder/said"; do
        sleep 3
    done
}

# Says what is wrong with a program's check, and nothing where it is as wanted.
judge() {
    local program=$here/$1.rt.txt cause error
    cp "$program" "$folder/src/lib.rt" || { echo "there is no such program" && return; }
    if grep -q '^// taken$' "$program"; then
        check
        grep -q '^logic=proved ' "$folder/said" || { echo "REFUSED" && grep -m 2 error "$folder/said"; }
        return
    fi
    # (All that these are refused for is known before any proof.)
    check --only ''
    cause=$(sed -n 's|^// refused: ||p' "$program")
    error=$(grep 'src/lib.rt:[0-9:]* error' "$folder/said")
    if [ -z "$error" ]; then
        echo "TAKEN: $(tail -n 1 "$folder/said")"
    elif [ -z "$cause" ] || ! grep -q -- "$cause" <<<"$error"; then
        echo "refused for ANOTHER CAUSE than '$cause': $(head -n 1 <<<"$error")"
    fi
}

passed=0 failed=0
[ $# -gt 0 ] || set -- $(cd "$here" && ls ./*.rt.txt | sed 's|^./||; s|\.rt\.txt$||')
for name in "$@"; do
    wrong=$(judge "$name")
    if [ -z "$wrong" ]; then
        passed=$((passed + 1))
    else
        failed=$((failed + 1))
        echo "$name: $wrong"
    fi
done
echo "$passed passed, $failed failed"
[ "$failed" = 0 ]
