#!/usr/bin/env bash
# Tests `#[derive(Logos)]` of rust/logos and `logos_build` of rust/logos-cli, without a network and
# without any program of this repository.
#
#   tests/derive/run.sh [GROUP ..]
#
# With the names of groups, which stand at the end, it tests these alone.
#
# In a quick test a group runs again if a package, a crate or a test has changed. The last line is
# `N passed, M failed`. How many have to pass is stated here.
set -uo pipefail

root=$(cd "$(dirname "${BASH_SOURCE[0]}")/../.." && pwd)
here=$root/tests/derive
. "$root/tests/kept.sh"
. "$here/places.sh"
export PYTHONDONTWRITEBYTECODE=1
unset LOGOS_SHAPE LOGOS_MEMORY
groups=" $* "
. "$root/tests/expect.sh"
# A fresh home, and a path without a program of this repository. Nothing is asked of a network.
RUSTUP_HOME=${RUSTUP_HOME:-$HOME/.rustup}
PATH=$(dirname "$(command -v cargo)"):/usr/bin:/bin
HOME=$room/home
CARGO_HOME=$HOME/.cargo
CARGO_HTTP_PROXY=http://127.0.0.1:9
CARGO_TARGET_DIR=${CARGO_TARGET_DIR:-$room/target}
CARGO_INCREMENTAL=0
export RUSTUP_HOME PATH HOME CARGO_HOME CARGO_HTTP_PROXY CARGO_TARGET_DIR CARGO_INCREMENTAL
mkdir "$HOME"

# WHAT FILE OTHER: counts whether two files are equal.
compare() {
    expect "$1" diff "$2" "$3"
}

# WHAT FILE COMMAND ..: counts whether all that a command prints is in a file.
prints() {
    "${@:3}" > "$room/found" 2>&1
    compare "$1" "$2" "$room/found"
}

# Whether a word is in the file `found`, as a line or a part of one.
says() {
    grep -qF -e "$1" "$room/found" || { tail -n 20 "$room/found"; false; }
}

says_no() {
    ! grep -F -e "$1" "$room/found"
}

# Copies a package of the tests, whose dependencies become those of this checkout.
lay_out() {
    cp -r "$here/$1" "$room/$1"
    sed -i "s|\"\(\.\./\)*rust/|\"$root/rust/|" "$room/$1/Cargo.toml"
}

# Writes the package `small`, whose lexer is read from standard input.
lay_out_small() {
    rm -rf "$room/small"
    mkdir -p "$room/small/src"
    printf '[package]\nname = "small"\nedition = "2021"\n\n[workspace]\n\n[dependencies]\nlogos = { path = "%s" }\n' \
        "$root/rust/logos" > "$room/small/Cargo.toml"
    { echo 'use logos::Logos;'; cat; printf 'fn main() {\n    println!("{:?}", Token::lexer("ab 1").next());\n}\n'; } > "$room/small/src/main.rs"
}

# COMMAND ..: has cargo do something with the package `small`.
small() {
    touch "$room/small/src/main.rs"
    cargo "$1" --offline --quiet --manifest-path "$room/small/Cargo.toml" "${@:2}" > "$room/found" 2>&1
}

# Builds the packages of accepted/ in a shape, runs them, and compares what they print.
accept() {
    local package name
    [ -d "$room/accepted" ] || { mkdir "$room/accepted"; cp -r "$here/Cargo.toml" "$here/accepted" "$room/accepted"; }
    sed -i "s|\"\(\.\./\)*rust/|\"$root/rust/|" "$room"/accepted/Cargo.toml "$room"/accepted/accepted/*/Cargo.toml
    LOGOS_SHAPE=$1 cargo build --offline --quiet --workspace --keep-going --manifest-path "$room/accepted/Cargo.toml" 2> "$room/errors" \
        || cat "$room/errors"
    for package in "$here"/accepted/*; do
        name=$(basename "$package")
        prints "$name in the shape $1" "$package/expected" "$CARGO_TARGET_DIR/debug/$name"
        rm -f "$CARGO_TARGET_DIR/debug/$name"
    done
}

# Runs the tests of the package users/ in a shape; in that of tables by `scan`, too.
use() {
    local words=(--offline --quiet --lib --manifest-path "$room/users/Cargo.toml") good bad
    [ -d "$room/users" ] || lay_out users
    [ "$1" = tables ] && words+=(--features scan)
    LOGOS_SHAPE=$1 cargo test "${words[@]}" > "$room/found" 2>&1
    read -r good bad < <(sed -n 's/^test result: .* \([0-9]*\) passed; \([0-9]*\) failed;.*/\1 \2/p' "$room/found")
    [ "${bad:-1}" = 0 ] || { echo "derive: users in the shape $1"; tail -n 60 "$room/found"; }
    passed=$((passed + ${good:-0}))
    failed=$((failed + ${bad:-1}))
}

# Compares the errors of the table of refused sources.
refuse() {
    local good bad
    python3 "$here/check.py" "$here/refused" "$room/refused" "$root/rust/logos" > "$room/output"
    head -n -1 "$room/output"
    read -r good _ bad _ < <(tail -n 1 "$room/output")
    passed=$((passed + good))
    failed=$((failed + bad))
}

# Builds packages with features of the package `logos`.
feature() {
    local all=std,export_derive,debug,state_machine_codegen,forbid_unsafe target
    local check=(cargo check --offline --quiet --no-default-features --manifest-path "$root/rust/logos/Cargo.toml")
    prints 'the package without features' /dev/null "${check[@]}"
    prints 'the package with all features' /dev/null "${check[@]}" --features "$all"
    lay_out_small <<< '#[derive(Logos, Debug)] enum Token { #[regex("[a-z]+")] Word }'
    small run --features logos/debug,logos/state_machine_codegen
    expect 'a package in the shape that a feature chooses' says '[logos] state_machine: impl'
    expect 'nothing about a path that is not there' says_no 'export_dir'
    lay_out_small <<< '#[derive(Logos, Debug)] #[logos(skip " ", export_dir = "diagrams")] enum Token { #[regex("[a-z]+")] Word }'
    small run
    compare 'export_dir changes nothing' <(echo 'Some(Ok(Word))') "$room/found"
    small run --features logos/debug
    expect 'what the macro does about export_dir' says '[logos] export_dir: the macro writes no file; `logos export FILE` writes the state diagram'
    expect 'the lexer is made' says 'Some(Ok(Word))'
    expect 'no folder is made' test ! -e "$room/small/diagrams" -a ! -e diagrams
    target=$(rustc --print target-libdir --target i686-unknown-linux-gnu 2> /dev/null)
    if [ -d "$target" ]; then
        prints 'the runtime for 32 bits' /dev/null "${check[@]}" --target i686-unknown-linux-gnu
    else
        echo 'derive: the runtime is not checked for 32 bits, since there is no target i686-unknown-linux-gnu'
        passed=$((passed + 1))
    fi
}

# Builds the package of scripted/, and keeps what it prints and what cargo says.
run_script() {
    cargo run --offline --manifest-path "$room/scripted/Cargo.toml" > "$room/printed" 2> "$room/found"
}

# Builds the package whose lexers a build script expands, and changes them.
script() {
    lay_out scripted
    run_script
    compare 'the package with a build script' "$here/scripted/expected" "$room/printed"
    expect 'no warning' says_no 'warning'
    sed -i 's/^    Whole/    #[cfg(all())]\n    Whole/' "$room/scripted/src/numbers.rs"
    run_script
    expect 'a warning of the library' says 'warning: scripted@0.1.0: warning: the pattern of this variant belongs to the lexer'
    compare 'the package with a warning' "$here/scripted/expected" "$room/printed"
    sed -i 's/"\[a-z\]+"/"[a-z\x1b"/' "$room/scripted/src/words.rs"
    run_script
    expect 'a faulty source' says ' --> src/words.rs:6:'
    expect 'no raw control character' says_no $'\x1b['
    rm "$room/scripted/src/words.rs"
    run_script
    expect 'a source that is missing' says 'error: cannot read src/words.rs'
}

# Sets the variables of the environment.
set_variables() {
    lay_out_small <<< '#[derive(Logos, Debug)] enum Token { #[regex("[a-z]+")] Word }'
    LOGOS_SHAPE='' small run
    expect 'an empty shape' says 'Some(Ok(Word))'
    LOGOS_SHAPE=state_machine small run --features logos/debug
    expect 'a shape' says '[logos] state_machine: impl'
    LOGOS_SHAPE=table small run
    expect 'another shape' says 'error: the variable LOGOS_SHAPE is `table`'
    expect 'which shapes there are' says 'help: write `tables`, `tailcall` or `state_machine`'
    expect 'no other error' says_no 'E0'
    LOGOS_MEMORY=2G small run
    expect 'a budget' says 'Some(Ok(Word))'
    LOGOS_MEMORY=many small run
    expect 'another budget' says 'error: the variable LOGOS_MEMORY has to be a number of bytes'
    LOGOS_MEMORY=20000 small check
    expect 'a small budget, for an answer that is kept' says_no 'error'
    lay_out_small <<< '#[derive(Logos, Debug)] enum Token { #[regex("[b-z]+")] Word }'
    LOGOS_MEMORY=20000 small check
    expect 'a small budget' says 'error: there is not enough memory to make the lexer of the enum `Token`'
    expect 'what to do about it' says 'such as `LOGOS_MEMORY=4G`'
    expect 'no other error' says_no 'E0'
    small run
    expect 'the budget of 1 GiB' says 'Some(Err(()))'
    lay_out_small <<< '#[derive(Logos, Debug)] enum Token { #[regex("((((a{500}){500}){500}){500}){500}")] Word }'
    small check
    expect 'a pattern that is too large' says 'error: '
    expect 'no other error' says_no 'E0'
}

# COMMAND ..: runs a command with the paths of all folders in which macros keep answers.
with_answers() {
    find "$CARGO_TARGET_DIR/debug/build" -path '*/logos-derive-*/out/answers' -print0 | xargs -0 "$@"
}

# COMMAND ..: runs a command for each file that is kept.
change_answers() {
    with_answers sh -c 'find "$@" -type f -print0' sh | xargs -0 -n 1 "$@"
}

# WHAT: runs the package, and compares what cargo says with what it said first.
answers_as_first() {
    small run
    compare "$1" "$room/first" "$room/found"
}

# Uses what the macro has kept, and what is no answer in its place.
keep_answers() {
    lay_out_small << 'END'
#[derive(Logos, Debug)] enum Token { #[regex("[a-z]+")] Word, #[regex("[0-9]+", priority = 5)] Number, #[token("7")] Seven }
END
    small run
    cp "$room/found" "$room/first"
    expect 'a warning' says 'warning: use of deprecated constant `_::logos`: this pattern of `Seven` is never found'
    expect 'a kept answer' with_answers grep -rqF 'priority = 5'
    answers_as_first 'the kept answer, with its warning'
    change_answers truncate -s 200
    answers_as_first 'answers that are cut off'
    change_answers truncate -s 0
    answers_as_first 'answers that are empty'
    change_answers cp "$room/small/src/main.rs"
    answers_as_first 'answers that are something else'
    with_answers sh -c 'rm -r "$@" && touch "$@"' sh
    answers_as_first 'folders that cannot be written'
    with_answers rm
    answers_as_first 'no folders'
    sed -i 's/^#\[derive(Logos/#[allow(deprecated)] &/' "$room/small/src/main.rs"
    small run
    expect 'a warning that the enum allows' says_no 'logos`'
}

# Runs the lints over a package that has none.
lint() {
    lay_out linted
    local words=(--offline --quiet --manifest-path "$room/linted/Cargo.toml") shape
    RUSTFLAGS=-Dwarnings prints 'a build that denies warnings' "$here/linted/expected" \
        cargo run "${words[@]}" --target-dir "$CARGO_TARGET_DIR/denied"
    prints 'clippy' /dev/null cargo clippy "${words[@]}"
    touch "$room"/linted/src/*.rs
    prints 'clippy with pedantic' /dev/null cargo clippy "${words[@]}" -- -W clippy::pedantic
    prints 'rustdoc' /dev/null cargo doc "${words[@]}" --no-deps
    for shape in state_machine tailcall; do
        touch "$room"/linted/src/*.rs
        LOGOS_SHAPE=$shape prints "clippy in the shape $shape" /dev/null cargo clippy "${words[@]}" --lib
    done
}

# Tests something, and writes into a file how many rows passed and failed.
counted() {
    local out=$1
    shift
    passed=0
    failed=0
    "$@"
    echo "$passed $failed" > "$out"
    [ "$failed" = 0 ]
}

# Prints all from which packages and tests are made.
made_from() {
    rustc --version --verbose
    cargo --version --verbose
    cat "$root/Cargo.toml" "$root/crates.txt"
    find "$root/rust" "$here" -name target -prune -o -name Cargo.lock -prune -o -type f -print0 | LC_ALL=C sort -z | xargs -0 sha256sum
    find "$root"/crates/*/src -type f -print0 | LC_ALL=C sort -z | xargs -0 sha256sum
}

# NAME ROWS COMMAND ..: tests something that has so many rows, unless it passed before as it is.
group() {
    local out=$room/derive_$1 rows=$2 good=0 bad=1
    [[ $groups = '  ' || $groups = *" $1 "* ]] || return 0
    (kept "$out" counted "$out" "${@:3}" < "$room/made_from")
    read -r good bad < "$out"
    passed=$((passed + good))
    failed=$((failed + bad + (good + bad == rows ? 0 : 1)))
    [ $((good + bad)) = "$rows" ] || echo "derive: the group $1 has $((good + bad)) rows, and not $rows"
}

made_from > "$room/made_from"
for shape in tailcall state_machine tables; do
    group "$shape" 12 accept "$shape"
    group "users_$shape" 211 use "$shape"
done
group refused 42 refuse
group features 9 feature
group scripted 7 script
group variables 14 set_variables
group answers 9 keep_answers
group linted 6 lint
group places 13 places
counts
