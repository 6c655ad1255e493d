#!/usr/bin/env bash
# Builds the libraries that crates of this clone use, lowest first, so that `rt check` in such a
# crate proves that crate alone.
#
#   tools/libraries.sh [--from FILE] [CRATE ..]
#
# It builds those below these crates of crates.txt, logos_codegen if none is named, and the crates
# themselves where they are libraries. Each is proved, unless this clone has it, or another clone on
# this machine in which `rt` built it of the same text. A crate took four processor minutes in the
# mean of a run of the gate (f9034563). With --from those that this clone lacks are first taken from
# a file of `tools/pack_libraries.py`; one of another text is proved anew.
#
# `rt check` does the same where they are missing, but first reads the sources of all of them
# together, for minutes and without a word.
set -euo pipefail
export PYTHONDONTWRITEBYTECODE=1

root=$(cd "$(dirname "${BASH_SOURCE[0]}")/.." && pwd)
if [ "${1-}" = --from ] && [ $# -ge 2 ]; then
    mkdir -p "$root/out"
    room=$(mktemp -d "$root/out/libraries.XXXXXX")
    trap 'rm -rf "$room"' EXIT
    echo "unpacks $2"
    tar -xzf "$2" -C "$room"
    for library in "$room"/crates/*/out/rlib; do
        to=$root/${library#"$room"/}
        if [ ! -e "$to" ]; then
            mkdir -p "$(dirname "$to")"
            mv "$library" "$to"
        fi
    done
    shift 2
fi
order=$(python3 - "$root/tools" "${@:-logos_codegen}" << 'END'
import os
import sys

sys.path.insert(0, sys.argv[1])
import crates

uses = crates.libraries()
order = []
for crate in sys.argv[2:]:
    if crate not in uses:
        crates.fail(f"{crate} is no crate of crates.txt")
    order += [it for it in [*crates.in_order(uses, crate), crate] if it not in order]
print(*(it for it in order if os.path.exists(f"{crates.ROOT}/crates/{it}/src/lib.rt")))
END
)
count=$(wc -w <<< "$order")
at=0
for crate in $order; do
    at=$((at + 1))
    echo "$crate ($at of $count)"
    (cd "$root/crates/$crate" && rt lib) || { echo "libraries: $crate is not proved" >&2; exit 1; }
done
