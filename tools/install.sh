#!/usr/bin/env bash
# Installs the proved programs `logos_cli`, `logos_show` and `logos`: `--help` says which arguments
# it takes. They are one program, which does what its name says.
#
# Where this clone has no changes, a line after the bytes of the program names the commit, which
# `--version` of logos_cli and logos_show prints.
set -euo pipefail

root=$(cd "$(dirname "${BASH_SOURCE[0]}")/.." && pwd)
usage='usage: tools/install.sh --proved | --built FOLDER [PREFIX]'

help() {
    cat <<END
$usage

Installs the programs logos_cli, logos_show and logos into PREFIX/bin.
PREFIX is ~/.local if it is not given. For programs without proofs:

    cargo install --path rust/logos-cli

  --proved        prove every crate, which takes 75 minutes on two cores, and
                  install the program that is built of them
  --built FOLDER  install the programs in FOLDER
  -h, --help      print this text
END
}

case ${1-} in
    -h | --help)
        help
        exit 0 ;;
    --proved) built= ;;
    --built)
        shift
        built=$(realpath -m "${1-}") ;;
    *)
        echo "$usage" >&2
        echo 'Programs without proofs are installed by: cargo install --path rust/logos-cli' >&2
        exit 2 ;;
esac
shift
bin=${1:-${HOME:?is not set: name a PREFIX}/.local}/bin
names=(logos_cli logos_show logos)
room=$(mktemp -d)
trap 'rm -rf "$room"' EXIT

# Prints the line that names the commit of this clone, if no file has changed since.
commit_line() {
    [ "$(git -C "$root" rev-parse --show-toplevel 2> /dev/null)" = "$root" ] || return 0
    [ -z "$(git -C "$root" status --porcelain)" ] || return 0
    printf 'commit: %s\n' "$(git -C "$root" rev-parse HEAD)"
}

touch "$room/commit"
if [ -z "$built" ]; then
    (cd "$root/crates/logos_program" && rt run -- lex data/t.rs data/input) > /dev/null
    commit_line > "$room/commit"
fi
mkdir -p "$bin"
for name in "${names[@]}"; do
    program=$root/crates/logos_program/out/logos_program
    [ -z "$built" ] || program=$built/$name
    cat "$program" "$room/commit" > "$bin/$name.part"
    chmod 755 "$bin/$name.part"
    mv -T "$bin/$name.part" "$bin/$name"
done
echo "Installed in $bin, ${built:+from }${built:-proved}: ${names[*]}"
case :$PATH: in *:$bin:*) ;; *) echo "$bin is not on your PATH: export PATH=\"$bin:\$PATH\" adds it." ;; esac
