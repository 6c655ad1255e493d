#!/usr/bin/env bash
# Runs the cases of the fuzzer's corpus, and compares what the library finds with the definition.
#
#   bash tests/fuzz/replay.sh
#
# The last line is `N passed, M failed`.
set -euo pipefail
here=$(cd "$(dirname "${BASH_SOURCE[0]}")" && pwd)
export CARGO_TARGET_DIR=${CARGO_TARGET_DIR:-${KEPT_BUILDS:-$here/../../out}/fuzz} CARGO_INCREMENTAL=0
cargo build --offline --quiet --release --manifest-path "$here/Cargo.toml"
exec "$CARGO_TARGET_DIR/release/fuzz" replay "$here/corpus.rows"
