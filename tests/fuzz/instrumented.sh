#!/usr/bin/env bash
# Builds the fuzzer with counters of the edges of its code and of the library, and prints its path.
#
# Stable rustc passes these options on to LLVM, whose pass counts. A target is named so that build
# scripts have no counters: nothing in them defines what the counters call.
set -euo pipefail
here=$(cd "$(dirname "${BASH_SOURCE[0]}")" && pwd)
host=$(rustc --version --verbose | sed -n 's/^host: //p')
export CARGO_TARGET_DIR=${CARGO_TARGET_DIR:-$here/../../out/fuzz}
export RUSTFLAGS='-Cpasses=sancov-module -Cllvm-args=-sanitizer-coverage-level=3 -Cllvm-args=-sanitizer-coverage-inline-8bit-counters'
cargo build --offline --quiet --release --target "$host" --manifest-path "$here/Cargo.toml" >&2
echo "$CARGO_TARGET_DIR/$host/release/fuzz"
