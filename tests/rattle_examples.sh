#!/usr/bin/env bash
# Runs the examples in Rattle, and the first one of the guide.
#
#   bash tests/rattle_examples.sh [FOLDER]    runs them as they lie in this folder, out/cargo/release if it is not given. Nothing is proved
#   bash tests/rattle_examples.sh --proved    proves each example by `rt ci`, as another repository would: as a crate of its own, in a folder with a
#                                             copy of crates/ and the lines of crates.txt; and runs it. This is not in the gate
#
# Each example is examples/NAME/main.rt.in, with the crates that it uses, NAME.rs and the files of
# data/, and has to print data/expected and end with status 0. `edit` does so only if the items
# after each edit are those of the text lexed anew. Then `log` is fed by a pipe, by
# `tests/long_log.py`. The last line is `rattle_examples: N passed, M failed`.
set -uo pipefail

root=$(cd "$(dirname "${BASH_SOURCE[0]}")/.." && pwd)
mode=run
built=$root/out/cargo/release
case ${1-} in
    --proved) mode=proved ;;
    ?*) built=$(realpath -m "$1") ;;
esac
room=$(mktemp -d)
trap 'rm -rf "$room"' EXIT
names=()

# The libraries that an example may use.
libraries='indexmap logos_automaton logos_code logos_codegen logos_host logos_lines logos_machine logos_relex logos_stream'

# Makes the other repository: the library as it stands, and its list.
make_repository() {
    local at
    mkdir -p "$room/crates"
    for at in "$root"/crates/logos_*; do
        mkdir "$room/crates/${at##*/}"
        cp -r "$at"/{src,specs,proofs} "$room/crates/${at##*/}" 2> /dev/null
    done
    cp "$root/crates.txt" "$root/HANDLES" "$room"
    git -C "$room" init -q
}

# Makes a crate NAME_example of an example (a library of the toolchain may have the short name): its
# name, what it has to print, and its words. Its program is read from standard input.
add_crate() {
    local at=$room/crates/$1_example text
    names+=("$1_example")
    text=$(cat)
    [[ $text == *'#![tactic(auto)]'* ]] || text=$'#![tactic(auto)]\n\n'$text
    mkdir -p "$at/src"
    printf '%s\n' "$text" > "$at/src/main.rt"
    # `rt ci` runs a program in the folder of its data.
    sed 's|^data/||' "$2" > "$at/stdout"
    if [ $# -gt 2 ]; then
        printf '%s\n' "${@:3}" | sed 's|^data/||' > "$at/args"
        mkdir "$at/data"
        cp "$root/examples/$1/$1.rs" "$root/examples/$1/data"/* "$at/data"
        rm "$at/data/expected"
    fi
    # Its definitions and what is written of its proofs stand in files whose names end with `.in`:
    # files of the toolchain may stand in crates alone.
    local folder
    for folder in specs proofs; do
        [ ! -d "$root/examples/$1/$folder" ] || cp -r "$root/examples/$1/$folder" "$at"
    done
    find "$at" -name '*.in' -exec sh -c 'mv "$1" "${1%.in}"' _ {} \;
    echo "$1_example: $libraries" >> "$room/crates.txt"
    (cd "$at" && rt fmt) > /dev/null
}

# Runs an example in a folder of its own: its name, what it has to print, and its words.
run_example() {
    local at=$room/$1
    names+=("$1")
    mkdir "$at"
    if [ $# -gt 2 ]; then
        mkdir "$at/data"
        cp "$root/examples/$1/$1.rs" "$root/examples/$1/data"/* "$at/data"
    fi
    if ! (cd "$at" && "$built/$1" "${@:3}") > "$room/output" 2> "$room/messages" || ! cmp -s "$2" "$room/output"; then
        echo "$1" >> "$room/failures"
        diff "$2" "$room/output" | head -n 20
        head -n 20 "$room/messages"
    fi
}

# Takes an example: its name, what it has to print, and its words. Its program is read from standard
# input.
take() {
    if [ "$mode" = proved ]; then
        add_crate "$@"
    else
        run_example "$@" < /dev/null
    fi
}

# Proves and runs all examples by `rt ci`, and prints the name of each that fails.
prove_all() {
    local name failures=0
    (cd "$room" && rt ci "${names[@]}") > "$room/output" 2> "$room/messages" < /dev/null && return
    tail -n 40 "$room/output" "$room/messages" >&2
    for name in "${names[@]}"; do
        grep -q "^rt: $name \(proved\|is kept\)" "$room/output" || { echo "$name"; failures=1; }
    done
    [ "$failures" = 1 ] || echo 'a run'
}

: > "$room/failures"
[ "$mode" = run ] || make_repository
take first "$root/docs/guide/first.txt" < "$root/docs/guide/first.rt.in"
while read -r name words; do
    # (the words are parted by blanks)
    take "$name" "$root/examples/$name/data/expected" $words < "$root/examples/$name/main.rt.in"
done << 'END'
config data/config.rs data/good.toml data/bad.toml
query data/query.rs data/query.sql
log data/log.rs data/access.log
errors
count data/count.rs data/text.txt
edit data/edit.rs data/text data/edits
END

if [ "$mode" = run ]; then
    names+=(long_log)
    python3 "$root/tests/long_log.py" "$built/log" || echo long_log >> "$room/failures"
else
    prove_all > "$room/failures"
fi
failed=$(wc -l < "$room/failures")
passed=$((${#names[@]} - failed))
sed 's/^/rattle_examples: failed: /' "$room/failures"
echo "rattle_examples: $passed passed, $failed failed"
[ "$failed" = 0 ]
