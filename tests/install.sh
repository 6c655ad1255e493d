#!/usr/bin/env bash
# Installs the three programs into a folder of its own, and runs there what README.md shows and the
# rows of each program.
#
#   tests/install.sh rattle FOLDER   by tools/install.sh, as they lie in FOLDER
#   tests/install.sh cargo           by `cargo install`
set -uo pipefail

root=$(cd "$(dirname "${BASH_SOURCE[0]}")/.." && pwd)
. "$root/tests/expect.sh"

shows_readme() {
    (cd "$root" && "$@" docs/guide/words.rs docs/guide/greeting) | head -n 2 > "$room/items" \
        && awk '/^\$ logos_show .*greeting/ { shown = 1; next } shown && /^(\$ |```)/ { exit } shown' "$root/README.md" | cmp -s - "$room/items"
}

# A shell finds a program through the path, and passes it its name without a folder.
runs_by_name() {
    PATH=$bin:$PATH shows_readme logos_show
}

shows_help() {
    bash "$root/tools/install.sh" --help > "$room/help" || return
    local word
    for word in 'PREFIX is' 'cargo install --path rust/logos-cli' '  --proved' '  --built FOLDER' '  -h, --help'; do
        grep -q -e "$word" "$room/help" || return
    done
}

# Without a word it names the other way, and installs nothing.
refuses_word() {
    local word
    for word in '' --to; do
        bash "$root/tools/install.sh" $word "$room/to" > /dev/null 2> "$room/said"
        [ $? = 2 ] && [ ! -e "$room/to" ] && grep -q 'cargo install --path rust/logos-cli' "$room/said" || return
    done
}

# Where a folder has the name of a program, nothing is moved into it.
refuses_folder() {
    mkdir -p "$room/in_the_way/bin/logos_cli"
    ! bash "$root/tools/install.sh" --built "$1" "$room/in_the_way" > /dev/null 2>&1 && rmdir "$room/in_the_way/bin/logos_cli"
}

# Without HOME a prefix has to be given.
refuses_homeless() {
    ! env -u HOME bash "$root/tools/install.sh" --built "$1" > /dev/null 2> "$room/said" && grep -q 'name a PREFIX' "$room/said"
}

rows() {
    python3 "$root/tests/rows/run.py" commands "$bin/$1" "$root/tests/rows/$1"/*.rows > "$room/rows" && return
    grep -v ' passed' "$room/rows" | head -n 20
    return 1
}

bin=$room/prefix/bin
if [ "$1" = rattle ]; then
    expect 'the programs are installed' bash "$root/tools/install.sh" --built "$2" "$room/prefix"
    expect 'the help has each word' shows_help
    expect 'another word is refused' refuses_word
    expect 'a folder in the place of a program stays empty' refuses_folder "$2"
    expect 'a prefix is needed without HOME' refuses_homeless "$2"
else
    expect 'the programs are installed' bash "$root/tests/erased.sh" install --path rust/logos-cli --root "$room/prefix"
fi
expect 'the items in README.md' shows_readme "$bin/logos_show"
expect 'a program that is found through the path shows them too' runs_by_name
for name in logos logos_cli logos_show; do
    expect "the rows of $name" rows "$name"
done
counts
