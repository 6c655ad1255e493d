#!/usr/bin/env bash
# Builds the programs of the tests by Cargo, from the crates without their contracts, into
# out/cargo/release: quickly, optimised, and with Rust's checks of overflow and its debug
# assertions, which a proof makes needless. As the proved ones they name no commit, since rows
# compare the version.
#
#   bash tests/erased.sh              builds them
#   bash tests/erased.sh build ..     runs `cargo build ..` in this way
#   bash tests/erased.sh install ..   runs `cargo install ..` with what was built so
set -euo pipefail
cd "$(dirname "${BASH_SOURCE[0]}")/.."
export CARGO_PROFILE_RELEASE_LTO=off CARGO_PROFILE_RELEASE_CODEGEN_UNITS=16 CARGO_PROFILE_RELEASE_OPT_LEVEL=2
export CARGO_PROFILE_RELEASE_OVERFLOW_CHECKS=true CARGO_PROFILE_RELEASE_DEBUG_ASSERTIONS=true
export GIT_DIR=/dev/null
[ $# -gt 0 ] || set -- build --release -p logos-cli -p test-programs
cargo "$@" --offline --quiet --target-dir out/cargo
echo '1 passed, 0 failed'
