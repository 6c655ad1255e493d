#!/usr/bin/env bash
# Tests a change in minutes: runs all parts of tests/parts but the long ones, the proofs and the
# wrong bodies, or those that are named, with the programs that Cargo builds of the crates.
#
#   bash tests/quick.sh [--long] [--rattle] [PART..]
#
# With --long the long parts run too, most of which compile Rust. With --rattle all also run with
# the programs that Rattle builds, without proofs. Where a tool is missing, the parts that need it
# are left out by name. At the end stand the time and the counts of each part, and last a line
# `N passed, M failed`. The status is 1 if anything failed.
set -euo pipefail
exec python3 "$(dirname "${BASH_SOURCE[0]}")/run_parts.py" quick "$@"
