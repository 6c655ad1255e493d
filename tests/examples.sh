#!/usr/bin/env bash
# Runs the examples, and the tests of the packages: `cargo test` in each Cargo package of examples/
# and rust/ that has tests, without a network and without a program of this repository. A quick test
# runs those of a package again if it, the packages of rust/ or the crates have changed.
#
# Where cargo is missing, that is printed, and nothing is tested. The last line is `examples: N
# passed, M failed`, with the number of tests that passed, and that of packages that failed.
set -uo pipefail

root=$(cd "$(dirname "${BASH_SOURCE[0]}")/.." && pwd)
. "$root/tests/kept.sh"
packages=(rust/erase rust/rattle-std rust/logos-codegen rust/logos rust/logos-derive examples/json examples/template examples/highlight examples/ini)
room=$(mktemp -d)
trap 'rm -rf "$room"' EXIT
passed=0
failed=0

if ! command -v cargo > /dev/null; then
    echo "examples: there is no cargo here, so ${#packages[@]} packages were not tested"
    exit 0
fi
# Tests a package, and writes into a file how many of its tests passed.
tested() {
    CARGO_TARGET_DIR=${CARGO_TARGET_DIR:-$room/target} CARGO_PROFILE_DEV_DEBUG=0 CARGO_INCREMENTAL=0 \
        cargo test --quiet --offline --manifest-path "$root/$1/Cargo.toml" > "$room/output" 2>&1 || return
    awk '/^test result: ok\. [0-9]+ passed/ { all += $4 } END { print all + 0 }' "$room/output" > "$2"
}

for package in "${packages[@]}"; do
    count=$room/examples_${package//\//_}
    if of_packages "$root/rust" "$root"/crates/*/src "$root/$package" "$root/tests/examples.sh" | kept "$count" tested "$package" "$count"; then
        passed=$((passed + $(< "$count")))
    else
        failed=$((failed + 1))
        printf 'examples: %s failed\n' "$package"
        tail -40 "$room/output"
    fi
done
echo "examples: $passed passed, $failed failed"
[ "$failed" -eq 0 ]
