#!/usr/bin/env bash
# Builds the playground: rust/playground/build.sh FOLDER
#
# It writes the page and `playground.wasm` into FOLDER, static files which any web server serves,
# and the file COMMIT, which names the commit, or nothing if a file has changed since.
#
# It needs a toolchain for `wasm32-unknown-unknown`: that of cargo if it has the standard library
# for it, as after `rustup target add wasm32-unknown-unknown`. Otherwise Debian's packages
# rustc-web, cargo-web and rust-web-src, from which the standard library is built, and lld. The
# compiled files stay in out/playground.
set -euo pipefail

root=$(cd "$(dirname "${BASH_SOURCE[0]}")/../.." && pwd)
[ $# = 1 ] || { echo 'usage: rust/playground/build.sh FOLDER' >&2; exit 2; }
mkdir -p "$1"
to=$(cd "$1" && pwd)
target=wasm32-unknown-unknown
sources=/usr/lib/rustlib/src/rust/library/vendor
export CARGO_TARGET_DIR=$root/out/playground
# The proofs are about pointers of 64 bits, so the library requires this `cfg`. The stack has 8 MiB,
# and the whole memory at most 1 GiB. Paths in messages do not depend on the folder of the clone.
flags=(--cfg logos_tested_only -C link-arg=-zstack-size=8388608 -C link-arg=--max-memory=1073741824 "--remap-path-prefix=$root=.")
CARGO_ENCODED_RUSTFLAGS=$(IFS=$'\x1f' && echo "${flags[*]}")
export CARGO_ENCODED_RUSTFLAGS
cargo=(cargo)
library=()
if [ ! -d "$(rustc --print sysroot)/lib/rustlib/$target" ]; then
    [ -d "$sources" ] && command -v wasm-ld > /dev/null \
        || { echo "playground: no standard library for $target: $0 names the packages" >&2; exit 1; }
    export RUSTC=/usr/bin/rustc RUSTC_BOOTSTRAP=1 CARGO_TARGET_WASM32_UNKNOWN_UNKNOWN_LINKER=wasm-ld
    cargo=(/usr/bin/cargo)
    # Without its features, of which one would read debug information for a trace of calls.
    library=(-Zbuild-std=std,panic_abort -Zbuild-std-features= --config 'source.crates-io.replace-with="vendored"' --config "source.vendored.directory=\"$sources\"")
fi
"${cargo[@]}" build --release --offline --quiet --manifest-path "$root/rust/playground/Cargo.toml" --target "$target" "${library[@]}"
commit=
[ -n "$(git -C "$root" status --porcelain)" ] || commit=$(git -C "$root" rev-parse HEAD)
install -m 644 "$root"/rust/playground/page/* "$CARGO_TARGET_DIR/$target/release/playground.wasm" "$to"
echo "$commit" > "$to/COMMIT"
