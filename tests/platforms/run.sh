#!/usr/bin/env bash
# Runs what Cargo builds of the crates on other processors, by qemu: every output has to be that of
# x86-64, byte for byte.
#
#   tests/platforms/run.sh aarch64   64-bit Arm
#   tests/platforms/run.sh s390x     big-endian
#   tests/platforms/run.sh 32        checks the runtime, and packages that derive lexers, for 32 bits
#
# It tries some files of rows of the three programs, all rows of calls, some generated sources, and
# the packages of tests/derive, whose macro runs on this machine. What is built stays in
# out/platforms.
#
# It needs Debian's packages rustc-web and cargo-web of one version; for aarch64 also
# libstd-rust-web-dev:arm64 (after `dpkg --add-architecture arm64`), gcc-aarch64-linux-gnu,
# libc6-dev-arm64-cross and qemu-user-static; for s390x rust-web-src, from which the standard
# library is built, gcc-s390x-linux-gnu, libc6-dev-s390x-cross and qemu-user-static; for 32 bits
# rust-web-src.
set -uo pipefail

root=$(cd "$(dirname "${BASH_SOURCE[0]}")/../.." && pwd)
. "$root/tests/expect.sh"
cd "$root"
export PYTHONDONTWRITEBYTECODE=1 CARGO_TARGET_DIR=$root/out/platforms RUSTC=/usr/bin/rustc
export CARGO_PROFILE_RELEASE_LTO=off CARGO_PROFILE_RELEASE_CODEGEN_UNITS=16 CARGO_PROFILE_RELEASE_OPT_LEVEL=1
export CARGO_PROFILE_RELEASE_OVERFLOW_CHECKS=true CARGO_PROFILE_RELEASE_DEBUG_ASSERTIONS=true
# The standard library is built from its sources where no package has it compiled.
of_sources=(--config 'source.crates-io.replace-with="vendored"' --config 'source.vendored.directory="/usr/lib/rustlib/src/rust/library/vendor"')
library=()
case $1 in
    aarch64)
        target=aarch64-unknown-linux-gnu
        export CARGO_TARGET_AARCH64_UNKNOWN_LINUX_GNU_LINKER=aarch64-linux-gnu-gcc ;;
    s390x)
        target=s390x-unknown-linux-gnu
        export CARGO_TARGET_S390X_UNKNOWN_LINUX_GNU_LINKER=s390x-linux-gnu-gcc
        library=(-Zbuild-std=std "${of_sources[@]}") ;;
    32)
        target=i686-unknown-linux-gnu
        library=(-Zbuild-std=std "${of_sources[@]}") ;;
esac
[ ${#library[@]} = 0 ] || export RUSTC_BOOTSTRAP=1
programs=$CARGO_TARGET_DIR/$target/release

# COMMAND ..: has cargo do something for the platform.
for_platform() {
    /usr/bin/cargo "$1" --release --offline --quiet --target "$target" "${library[@]}" "${@:2}"
}

# Puts a script for each program into the room, which runs it by qemu.
put_scripts() {
    local name
    mkdir "$room/bin"
    for name in logos logos_cli logos_show calls evidence; do
        printf '#!/bin/sh\nexec qemu-%s-static -L /usr/%s-linux-gnu "%s" "$@"\n' "$platform" "$platform" "$programs/$name" > "$room/bin/$name"
        chmod +x "$room/bin/$name"
    done
}

# PROGRAM FILE ..: compares the rows of commands in these files, and counts them.
rows_of() {
    count python3 tests/rows/run.py commands "$room/bin/$1" $(printf "tests/rows/$1/%s.rows " "${@:2}")
}

# COMMAND ..: runs a test, and adds its counts.
count() {
    local good bad
    "$@" > "$room/output" 2>&1
    read -r good bad < <(tail -n 1 "$room/output" | sed -n 's/.*\b\([0-9]\+\) passed, \([0-9]\+\) failed$/\1 \2/p')
    [ "${bad:-1}" = 0 ] || { echo "failed: $*"; head -n 20 "$room/output"; }
    passed=$((passed + ${good:-0}))
    failed=$((failed + ${bad:-1}))
}

# Runs the packages of tests/derive/accepted, and compares what they print.
run_packages() {
    local package name
    expect 'the packages of tests/derive are built' for_platform build --manifest-path tests/derive/Cargo.toml
    for package in tests/derive/accepted/*; do
        name=$(basename "$package")
        qemu-"$platform"-static -L "/usr/$platform-linux-gnu" "$programs/$name" > "$room/found" 2>&1
        expect "what $name prints" cmp "$package/expected" "$room/found"
    done
}

run_all() {
    put_scripts
    rows_of logos answers charts grammar strip subpatterns_and_graphs
    rows_of logos_cli expansion files rendering
    rows_of logos_show items questions records streams tables
    count python3 tests/rows/run.py calls "$room/bin/calls" tests/rows/calls/*.rows
    count python3 tests/generated/main.py "$room/bin/logos" "$room/bin/calls" {0..29} {1000..1019} {2000..2009}
    run_packages
}

if [ "$1" = 32 ]; then
    expect 'the runtime' for_platform check --manifest-path rust/logos/Cargo.toml
    expect 'the runtime without std' for_platform check --manifest-path rust/logos/Cargo.toml --no-default-features --features export_derive
    expect 'packages that derive lexers' for_platform check --manifest-path tests/derive/Cargo.toml
else
    platform=$1
    expect 'the programs are built' for_platform build -p logos-cli -p test-programs
    run_all
fi
counts
