#!/usr/bin/env bash
# Installs the programs of a release: bash install.sh [PREFIX]
#
# PREFIX is ~/.local if it is not given. The programs are put into PREFIX/bin, and the Rust
# packages, the completions for shells, the playground, the pages and the licences into
# PREFIX/share/logos, where FILES lists all of them with their sums. They take the place of what
# FILES of another release lists. Nothing is installed where any other file is in the way, or one
# that has changed since, or where a file of this release is not as SHA256SUMS says.
set -euo pipefail
export LC_ALL=C

case ${1-} in
    -*)
        echo 'usage: bash install.sh [PREFIX]' >&2
        exit 2 ;;
esac
here=$(cd "$(dirname "${BASH_SOURCE[0]}")" && pwd)
mkdir -p "${1:-$HOME/.local}"/{bin,share}
prefix=$(cd "${1:-$HOME/.local}" && pwd)
share=$prefix/share/logos
names=(logos logos_cli logos_show)

refuse() {
    echo "install: $1: nothing is installed" >&2
    exit 1
}

# Prints the sums of the files of a release below a folder, with their paths below PREFIX.
sums() {
    (cd "$1" && find . -type f ! -name FILES -print0 | sort -z | xargs -0 sha256sum | sed "s|  \\./|  $2/|")
}

(cd "$here" && sha256sum --quiet -c SHA256SUMS) || refuse 'a file is not as SHA256SUMS says'
[ ! -f "$share/FILES" ] || (cd "$prefix" && sha256sum --quiet --ignore-missing -c share/logos/FILES) || refuse 'a file of the release that is installed has changed'
cd "$prefix"
other=$(comm -23 <(find "${names[@]/#/bin/}" share/logos ! -type d 2> /dev/null | sort) <({ echo share/logos/FILES; cut -c 67- "$share/FILES" 2> /dev/null; } | sort) | head -n 1)
[ -z "$other" ] || refuse "no release has put $prefix/$other there"

beside=$(mktemp -d "$share.XXXXXX")
trap 'rm -rf "$beside"' EXIT
mkdir "$beside/new" "$beside/bin"
cp "${names[@]/#/$here/bin/}" "$beside/bin"
for it in README.md CHANGELOG.md LICENSE-APACHE LICENSE-MIT COMMIT completions docs rust playground; do
    [ ! -e "$here/$it" ] || cp -R "$here/$it" "$beside/new"
done
{ sums "$beside/bin" bin; sums "$beside/new" share/logos; } > "$beside/FILES"
mv "$beside/FILES" "$beside/new"
[ ! -d "$share" ] || mv "$share" "$beside/old"
mv "$beside/new" "$share"
mv "$beside"/bin/* "$prefix/bin"
echo "Installed in $prefix/bin: ${names[*]}, of commit $(head -n 1 "$here/COMMIT" | cut -c 1-12)."
echo "In Cargo.toml: logos = { path = \"$share/rust/logos\" }"
case :$PATH: in *:$prefix/bin:*) ;; *) echo "$prefix/bin is not on your PATH: export PATH=\"$prefix/bin:\$PATH\" adds it." ;; esac
