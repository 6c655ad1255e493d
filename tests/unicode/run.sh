#!/usr/bin/env bash
# Prints the tables of Unicode that `rust/rattle-std` has by a program in Rattle, which asks the
# libraries of the toolchain, and compares them with the committed ones.
#
#   bash tests/unicode/run.sh           compares. The last line is `N passed, M failed`
#   bash tests/unicode/run.sh --write   writes the file
#
# The libraries look names up, and list none. So the names are read from the definitions that the
# contracts of these calls cite: `binary_names`, `category_names` and `script_names` of the crate
# `ucd_sets`. Nothing is proved.
set -euo pipefail

here=$(cd "$(dirname "${BASH_SOURCE[0]}")" && pwd)
root=$(cd "$here/../.." && pwd)
tables=$root/rust/rattle-std/src/crates/unicode_tables.rs
room=$(mktemp -d)
trap 'rm -rf "$room"' EXIT

# The normalized names of the sets that a name alone stands for, in the order of their bytes.
names() {
    local kit
    kit=$(dirname "$(rt doc)")
    sed -n '/^\(binary\|category\|script\)_names =$/,/∷ \[\]/s/^[^"]*("\([^"]*\)".*/\1/p' \
        "$kit/rattle/ucd_sets/specs/Names.antt" | tr 'A-Z' 'a-z' | tr -d ' _-' | sed 's/^is//' | LC_ALL=C sort -u
}

program=$room/crates/unicode_tables
mkdir -p "$program/src"
for source in "$here"/src/*.rt.in; do
    name=${source##*/}
    cp "$source" "$program/src/${name%.in}"
done
cp "$here/libraries.txt" "$room/crates.txt"
cp "$root/HANDLES" "$room"
git -C "$room" init -q
names > "$program/names"
count=$(wc -l < "$program/names")
[ "$count" -gt 400 ] || { echo "only $count names are found" >&2; exit 1; }
if ! (cd "$program" && rt try --seconds 300 -- names) > "$room/said" 2> "$room/errors"; then
    tail -n 20 "$room/said" "$room/errors" >&2
    exit 1
fi
if [ "${1-}" = --write ]; then
    cp "$room/said" "$tables"
elif cmp "$room/said" "$tables"; then
    echo "1 passed, 0 failed"
else
    echo "0 passed, 1 failed"
    exit 1
fi
