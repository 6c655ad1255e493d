#!/usr/bin/env bash
# Fuzzes the library from its corpus and from the sources of other tests.
#
#   bash tests/fuzz/run.sh [--seconds N] [--seed N]
#
# What shows something new is collected in out/fuzz/corpus.rows, and findings in out/fuzz/findings.
set -euo pipefail
root=$(cd "$(dirname "${BASH_SOURCE[0]}")/../.." && pwd)
out=$root/out/fuzz
mkdir -p "$out"
export CARGO_TARGET_DIR=${CARGO_TARGET_DIR:-$out}
fuzz=$(bash "$root/tests/fuzz/instrumented.sh")
[ -e "$out/corpus.rows" ] || cp "$root/tests/fuzz/corpus.rows" "$out/corpus.rows"
exec "$fuzz" run --corpus "$out/corpus.rows" --seeds "$root/tests/rows" --seeds "$root/tests/generated" \
    --findings "$out/findings" "$@"
