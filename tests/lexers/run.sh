#!/usr/bin/env bash
# Takes lexers as users of Logos write them through `logos_cli`, rustc, clippy and rustfmt, and
# compares the items with those of `logos_show`.
#
# Each of the forty files is a whole Rust file with one lexer or more: those of examples/lexers, of
# the other examples and of the guide, and those of tests/lexers/files, which have modules,
# conditions, callbacks, comments, documentation of the file itself, and line ends of all kinds.
# Beside it stands an input. The derive is expanded in all three shapes; lines outside of the enums
# have to stay; another file includes the results, and rustc and clippy accept them where all
# warnings are errors. A result is as rustfmt leaves it, but that of `dense`, whose own items stand
# on one line: rustfmt changes only those. What each lexer finds in its input is compared with what
# `logos_show` prints, line by line: callbacks give an item for each match. So is what `scan` finds,
# in the shape that has it.
#
# It needs rustc, and the programs that the gate has built, or the first two arguments. Where
# rustfmt or clippy is missing it says so.
set -euo pipefail

root=$(cd "$(dirname "${BASH_SOURCE[0]}")/../.." && pwd)
here=$root/tests/lexers
cli=$(realpath -m "${1:-$root/out/programs/logos_cli}")
show=$(realpath -m "${2:-$root/out/programs/logos_show}")
lexers=40
settled=39
scanning=8
shapes='state_machine tailcall tables'
# The enum of a file whose items are compared, where that is not the last one.
declare -A enums=([conditions]=Token [dense]=Token [errors]=Token [ini]=Line [paths]=Token [several]=Token [template]=Outside)
# The type of the tokens of a file whose enum has parameters.
declare -A types=([generics]=Given)
room=$(mktemp -d)
trap 'rm -rf "$room"' EXIT

fail() {
    echo "lexers: $1" >&2
    echo "0 passed, 1 failed"
    exit 1
}

for program in "$cli" "$show"; do
    [ -x "$program" ] || fail "the program $program is missing"
done
command -v rustc > /dev/null || fail "rustc is missing"
. "$root/tests/kept.sh"

# Lays out all files with their inputs.
lay_out() {
    local file
    mkdir "$room/files"
    cp "$root"/examples/lexers/*.{rs,input} "$here"/files/*.{rs,input} "$room/files"
    as_it_is highlight examples/highlight/src/lexer.rs examples/highlight/data/sample.rs.txt
    as_it_is ini examples/ini/src/lexers.rs examples/ini/data/sample.ini
    as_it_is json_text examples/json/src/lexer.rs examples/json/data/sample.json
    as_it_is template examples/template/src/lexers.rs examples/template/data/letter.txt
    as_it_is words docs/guide/words.rs docs/guide/greeting
    deriving config examples/config/config.rs examples/config/data/good.toml
    deriving count examples/count/count.rs examples/count/data/text.txt
    deriving log examples/log/log.rs examples/log/data/access.log
    deriving query examples/query/query.rs examples/query/data/query.sql
    deriving octet_frames docs/guide/bytes.rs docs/guide/packets
    deriving line_ends docs/guide/looks.rs docs/guide/edges
    deriving sums docs/guide/expr.rs docs/guide/sum
    deriving codes docs/guide/codes_cured.rs docs/guide/greeting
}

# Lays out a file of the repository, as it is, or with a public enum that derives `Logos` and
# `Debug`.
as_it_is() {
    cp "$root/$2" "$room/files/$1.rs"
    cp "$root/$3" "$room/files/$1.input"
}
deriving() {
    sed '/^#\[derive(.*Logos)\]$/d; s/^enum /#[derive(logos::Logos, Debug)]\npub enum /' "$root/$2" > "$room/files/$1.rs"
    cp "$root/$3" "$room/files/$1.input"
}

# Has rustc compile the expanded files, where all warnings are errors, and a program that lexes by
# them. Clippy is rustc with more warnings, so that where it is there it compiles the files.
compile() {
    (cd "$room" && rustc --edition 2021 -A warnings --crate-name logos --crate-type rlib --cfg 'feature="std"' -o liblogos.rlib "$root/rust/logos/src/lib.rs" \
        && "$compiler" --edition 2021 --extern logos=liblogos.rlib --crate-name expanded --crate-type rlib -o libexpanded.rlib expanded.rs \
        && rustc --edition 2021 -A warnings --extern logos=liblogos.rlib --extern expanded=libexpanded.rlib -o lexers main.rs)
}

# Prints the arm that lexes by a module: the module, the type of its tokens, and whether it reads
# bytes.
arm() {
    local source='std::str::from_utf8(&bytes).expect("UTF-8")'
    [ "$3" = text ] || source='&bytes'
    printf '"%s" => print(&mut out, &bytes, logos::Lexer::<expanded::%s::%s>::new(%s).spanned()),\n' "$1" "$1" "$2" "$source"
    [ -z "${4:-}" ] || printf '"%s_scan" => print(&mut out, &bytes, logos::internal::looking(logos::Lexer::<expanded::%s::%s>::new(%s), true).scan()),\n' "${1%_tables}" "$1" "$2" "$source"
}

# Writes the names of the files, sources and results, that rustfmt changes.
unsettled() {
    local names
    {
        mapfile -t names < <(printf '%s\n' files/*.rs results/*.rs | grep -v '/tabs\.')
        rustfmt --edition 2021 --check -l "${names[@]}" || true
        rustfmt --edition 2021 --check -l --config hard_tabs=true files/tabs.rs results/tabs.*.rs || true
    } > "$room/named" 2> "$room/complaints"
    [ ! -s "$room/complaints" ] || { cat "$room/complaints" >&2; return 1; }
    sed "s|^$(pwd -P)/||" "$room/named" > "$room/lexers_unsettled"
}

# Counts the results that are as rustfmt leaves them. Fails if one is not, and its source is.
count_settled() {
    local name
    { rustfmt --version; cat "$here/run.sh" files/*.rs results/*.rs; } | kept "$room/lexers_unsettled" unsettled || fail "rustfmt does not read a file"
    for name in results/*.rs; do
        if ! grep -qxF "$name" "$room/lexers_unsettled"; then
            stable=$((stable + 1))
        elif name=${name#results/} && ! grep -qxF "files/${name%%.*}.rs" "$room/lexers_unsettled"; then
            fail "rustfmt changes $name"
        fi
    done
}

lay_out
echo '#![deny(warnings)]' > "$room/expanded.rs"
touch "$room/scanning"
mkdir "$room/results"
found=0
stable=0
for file in "$room"/files/*.rs; do
    name=$(basename "$file" .rs)
    enum=${enums[$name]:-$("$show" "$file" | sed -n 's/^enum \([^ ]*\) .*/\1/p' | tail -n 1)}
    "$show" "$file" "${file%.rs}.input" --enum "$enum" > "$room/shown" 2> "$room/notes"
    sed '/^$/,$d' "$room/shown" > "$room/$name.wanted"
    [ -s "$room/$name.wanted" ] || fail "$name has no items"
    reads=text
    ! grep -q 'utf8 = false' "$file" || reads=bytes
    for shape in $shapes; do
        expanded=$room/${name}_$shape.rs
        "$cli" "$file" --shape "$shape" --output "$expanded"
        "$cli" "$file" --shape "$shape" --output "$expanded" --check
        # What stands outside the enums is there as before.
        grep -vxF -f "$expanded" "$file" | grep -E '^(use|pub (type|const|fn|struct)|impl)' && fail "$name lost these lines"
        printf 'pub mod %s {\n    include!("%s");\n}\n' "${name}_$shape" "$(basename "$expanded")" >> "$room/expanded.rs"
        scans=
        [ "$shape" != tables ] || [ ! -f "$root/examples/lexers/$name.rs" ] || scans=scan
        arm "${name}_$shape" "${types[$name]:-$enum}" "$reads" "$scans" >> "$room/arms"
        [ -z "$scans" ] || echo "$name" >> "$room/scanning"
        ln "$expanded" "$room/results/$name.$shape.rs"
    done
    found=$((found + 1))
done
[ "$found" = "$lexers" ] || fail "$found lexers in place of $lexers"
[ "$(wc -l < "$room/scanning")" = "$scanning" ] || fail "$(wc -l < "$room/scanning") lexers scan, in place of $scanning"
if command -v rustfmt > /dev/null; then
    cd "$room" && count_settled
    [ "$stable" = "$((settled * 3))" ] || fail "rustfmt leaves $stable results as they are, in place of $((settled * 3))"
else
    echo "lexers: rustfmt is missing, so it was not asked"
fi

sed -e "/LEXERS/{
r $room/arms
d
}" "$here/main.rs.in" > "$room/main.rs"
compiler=clippy-driver
if ! command -v clippy-driver > /dev/null; then
    echo "lexers: clippy is missing, so it was not asked"
    compiler=rustc
fi
{ of_runtime "$root"; "$compiler" --version; cat "$room"/*.rs; } | kept "$room/lexers" compile || fail "rustc or clippy refuses the expanded files"
compared=0
items=0
for wanted in "$room"/*.wanted; do
    name=$(basename "$wanted" .wanted)
    ways=$shapes
    ! grep -qx "$name" "$room/scanning" || ways="$shapes scan"
    for shape in $ways; do
        "$room/lexers" "${name}_$shape" "$room/files/$name.input" | diff "$wanted" - > "$room/difference" \
            || { cat "$room/difference" >&2; fail "$name, $shape, finds other items"; }
        compared=$((compared + 1))
    done
    items=$((items + $(wc -l < "$wanted")))
done
echo "lexers: $found lexers in the shapes $shapes, $items items each, and rustfmt leaves $stable results as they are"
echo "$compared passed, 0 failed"
