#!/usr/bin/env bash
# Packs the three proved programs for machines without the toolchain, and the Cargo packages:
# tools/release.sh [--built FOLDER] FOLDER
#
# It writes FOLDER/logos-VERSION-x86_64-linux.tar.gz, with the programs; in `rust/` the packages as
# tools/package.py makes them; in `completions/` those of tools/completions.py for shells; the
# playground; the pages and the licences; the file COMMIT, which names the commit; and the file
# SHA256SUMS, with the sum of each other file. Its `install.sh` compares the sums, and puts the
# programs into PREFIX/bin and the rest into PREFIX/share/logos. The programs need x86-64 Linux with
# glibc 2.34 or later.
#
# The playground is that of out/playground/page. It is left out, with a message, if it was not built
# of this commit, as by rust/playground/build.sh out/playground/page.
#
# The programs are those that `.ci/run` has proved and built, and it refuses where a file has
# changed since. With --built they are taken from a folder in which they were built, and COMMIT says
# that they are not the proved ones. After the bytes of each program a line names the commit, which
# `--version` of logos_cli and logos_show prints. The same commit and the same programs give the
# same bytes, wherever the clone lies.
set -euo pipefail

root=$(cd "$(dirname "${BASH_SOURCE[0]}")/.." && pwd)
built=
if [ "${1-}" = --built ] && [ $# = 3 ]; then
    built=$(realpath -m "$2")
    shift 2
fi
if [ $# != 1 ] || [[ $1 = -* ]]; then
    echo 'usage: tools/release.sh [--built FOLDER] FOLDER' >&2
    exit 2
fi
mkdir -p "$1"
to=$(cd "$1" && pwd)
git=(git -C "$root")

refuse() {
    echo "release: $1" >&2
    exit 1
}

# Prints the path of the program with this name.
program() {
    if [ -n "$built" ]; then
        echo "$built/$1"
    else
        echo "$root/out/programs/$1"
    fi
}

[ -z "$("${git[@]}" status --porcelain)" ] || refuse 'a file has changed since the last commit'
commit=$("${git[@]}" rev-parse HEAD)
if [ -n "$built" ]; then
    said='These programs were built apart from the gate: no proof stands behind this build itself.'
else
    [[ $(bash "$root/tests/proofs.sh" --kept) == *' passed, 0 failed' ]] || refuse 'the gate has not proved this commit here: run bash .ci/run'
    said='The gate proved these programs and built them.'
fi
version=$("$(program logos_cli)" --version | awk 'NR == 1 { print $2 }')
export PYTHONDONTWRITEBYTECODE=1
name=logos-$version-x86_64-linux
room=$(mktemp -d)
trap 'rm -rf "$room"' EXIT
mkdir -p "$room/$name/bin"
for it in logos logos_cli logos_show; do
    install -m 755 "$(program "$it")" "$room/$name/bin/$it"
    printf 'commit: %s\n' "$commit" >> "$room/$name/bin/$it"
done
"${git[@]}" archive HEAD README.md CHANGELOG.md LICENSE-APACHE LICENSE-MIT docs rust/README.md | tar -xf - -C "$room/$name"
python3 "$root/tools/package.py" --sources "$room/made" > /dev/null
cp -R "$room/made/packages/." "$room/$name/rust"
python3 "$root/tools/completions.py" "$room/$name/completions" > /dev/null
page=$root/out/playground/page
if [ "$(cat "$page/COMMIT" 2> /dev/null)" = "$commit" ]; then
    cp -R "$page" "$room/$name/playground"
else
    echo 'release: left out: the playground, since out/playground/page was not built of this commit' >&2
fi
printf '%s\n%s\n' "$commit" "$said" > "$room/$name/COMMIT"
install -m 755 "$root/tools/install_release.sh" "$room/$name/install.sh"
(cd "$room/$name" && find . -type f ! -name SHA256SUMS -print0 | LC_ALL=C sort -z | xargs -0 sha256sum > SHA256SUMS)
chmod -R u=rwX,go=rX "$room/$name"
# The order of files, their times and their owners are those of the commit, so that the bytes depend
# on nothing else.
tar --sort=name --mtime="@$("${git[@]}" log -1 --format=%ct)" --owner=0 --group=0 --numeric-owner --format=gnu -cf - -C "$room" "$name" \
    | gzip -n -9 > "$to/$name.tar.gz.part"
mv "$to/$name.tar.gz.part" "$to/$name.tar.gz"
echo "$to/$name.tar.gz"
