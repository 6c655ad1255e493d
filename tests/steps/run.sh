#!/usr/bin/env bash
# Compares lexers of `rust/logos` step by step with the lexer of the library, from the crates
# without their contracts: see main.rs.in. The sources and inputs are those of sources.py.
#
#   bash tests/steps/run.sh LOGOS
#
# It needs rustc, cargo, and the program `logos`, which says which sources are accepted.
set -euo pipefail

root=$(cd "$(dirname "${BASH_SOURCE[0]}")/../.." && pwd)
here=$root/tests/steps
logos=$(realpath "${1:-$root/out/programs/logos}")
least=320
. "$root/tests/kept.sh"
room=$(mktemp -d)
trap 'rm -rf "$room"' EXIT

fail() {
    echo "steps: $1" >&2
    echo "0 passed, 1 failed"
    exit 1
}

# Has rustc compile the lexers and the program.
compile() {
    local built=$root/out/cargo/debug
    CARGO_PROFILE_DEV_OPT_LEVEL=1 CARGO_PROFILE_DEV_DEBUG=0 cargo build --offline --quiet -p logos-derive -p logos-codegen -p rattle-std --manifest-path "$root/Cargo.toml" --target-dir "$root/out/cargo"
    rustc --edition 2021 --crate-type rlib --crate-name logos --cfg 'feature="export_derive"' --cfg 'feature="std"' --extern "logos_derive=$built/liblogos_derive.so" \
        -C opt-level=1 -C debug-assertions=on -o "$room/liblogos.rlib" "$root/rust/logos/src/lib.rs"
    cp "$here/main.rs.in" "$room/main.rs"
    rustc --edition 2021 -A warnings -L "dependency=$built/deps" --extern "logos=$room/liblogos.rlib" --extern "logos_codegen=$built/liblogos_codegen.rlib" \
        --extern "rattle_std=$built/librattle_std.rlib" -o "$room/compiled_steps" "$room/main.rs"
}

command -v cargo > /dev/null || fail "cargo is missing"
count=$(python3 "$here/sources.py" "$logos" "$room")
[ "$count" -ge "$least" ] || fail "$count sources are accepted, where $least are stated"
{ of_packages "$root/rust" "$root"/crates/*/src; cat "$here/main.rs.in" "$room/lexers.rs"; } | kept "$room/compiled_steps" compile || fail "rustc refuses the lexers"
"$room/compiled_steps" "$room" || fail "a lexer finds other items"
