# Read by scripts that compile what they have printed. The variable KEPT_BUILDS names a folder for
# what was compiled, and for what was found: that of the quick test, or one of this gate.

# Runs a command that makes a file, unless an earlier run made it from the same; all from which it
# is made is read from standard input.
kept() {
    local out=$1 at sum
    shift
    sum=$(sha256sum)
    at=${KEPT_BUILDS-}/$(basename "$out")
    if [ -n "${KEPT_BUILDS-}" ] && [ -e "$at" ] && [ "$(cat "$at.sum" 2> /dev/null)" = "$sum" ]; then
        cp "$at" "$out"
        return
    fi
    "$@" || return
    if [ -n "${KEPT_BUILDS-}" ]; then
        mkdir -p "$KEPT_BUILDS"
        rm -f "$at.sum"
        cp "$out" "$at"
        echo "$sum" > "$at.sum"
    fi
}

# Prints the version of rustc, and the sources of the runtime package in this checkout.
of_runtime() {
    rustc --version --verbose
    find "$1/rust/logos" -name target -prune -o -name '*.rs' -print | LC_ALL=C sort | xargs cat
}

# Prints the versions of rustc and cargo, and the sums of all files in these folders, but for those
# that cargo makes.
of_packages() {
    rustc --version --verbose
    cargo --version --verbose
    find "$@" \( -name target -o -path '*/rust/*/Cargo.lock' -o -path '*/examples/*/Cargo.lock' \) -prune -o -type f -print0 | LC_ALL=C sort -z | xargs -0 sha256sum
}
