#!/usr/bin/env bash
# Packs a release of the programs in a folder in two clones, and installs it.
#
#   tests/release.sh FOLDER
set -uo pipefail

root=$(cd "$(dirname "${BASH_SOURCE[0]}")/.." && pwd)
built=$1
. "$root/tests/expect.sh"

# FOLDER: makes a clone of what a release packs.
make_clone() {
    mkdir -p "$1/crates"
    cp -R "$root"/{.gitignore,README.md,CHANGELOG.md,LICENSE-APACHE,LICENSE-MIT,Cargo.toml,Cargo.lock,crates.txt,docs,rust,tools} "$1"
    tar -C "$root/crates" --exclude=out -cf - . | tar -C "$1/crates" -xf -
    rm -rf "$1"/rust/*/target
    git -C "$1" init -q
    git -C "$1" add -A
    GIT_AUTHOR_DATE='2026-01-01T00:00:00Z' GIT_COMMITTER_DATE='2026-01-01T00:00:00Z' git -C "$1" -c user.name=t -c user.email=t commit -qm t
    mkdir -p "$1/out/playground/page"
    git -C "$1" rev-parse HEAD > "$1/out/playground/page/COMMIT"
}

# FOLDER: packs the programs in a clone.
packs() {
    bash "$1/tools/release.sh" --built "$built" "$1.out" > /dev/null
}

# The programs, the packages and the pages state one version of ours, and one of the crate.
states_one_version() {
    local version ported
    version=$("$built/logos_cli" --version | awk 'NR == 1 { print $2 }')
    ported=$(sed -n 's/^version = "\(.*\)+.*"$/\1/p' "$root/rust/logos/Cargo.toml")
    [[ $("$built/logos_show" --version) = "logos_show $version (for logos ${ported%.*})"* ]] \
        && grep -m 1 '^## ' "$root/CHANGELOG.md" | grep -qF "## $version, a port of $ported (" \
        && tr '\n' ' ' < "$root/README.md" | grep -qF "version $version is a port of \`logos-codegen\` $ported" \
        && ! grep -h '^version = ' "$root"/rust/*/Cargo.toml | grep -vxF -e "version = \"$version\"" -e "version = \"$ported+$version\""
}

packs_the_same() {
    make_clone "$room/one"
    make_clone "$room/another/clone"
    packs "$room/one" && packs "$room/another/clone" && cmp "$room/one.out"/*.tar.gz "$room/another/clone.out"/*.tar.gz
}

# FOLDER [COMMAND ..]: installs the release into a folder.
installs() {
    bash "$room"/logos-*-linux/install.sh "$1" > "$room/said" 2>&1
}

shows_items() {
    tar -xzf "$room/one.out"/*.tar.gz -C "$room" && installs "$room/release" \
        && (cd "$root" && "$room/release/bin/logos_show" docs/guide/words.rs docs/guide/greeting) | head -n 1 | grep -qxF '1:1  Capital  "Hello"'
}

# The version names the commit that the release names, and it is that of the clone.
names_commit() {
    [ "$(git -C "$room/one" rev-parse HEAD)" = "$(head -n 1 "$room/release/share/logos/COMMIT")" ] \
        && "$room/release/bin/logos_cli" --version | grep -q '^logos_cli '
}

has_playground() {
    cmp "$room/one/out/playground/page/COMMIT" "$room/release/share/logos/playground/COMMIT"
}

# A shell completes an option by what is installed.
has_completions() {
    local words=". '$room/release/share/logos/completions/logos.bash'; COMP_WORDS=(logos_show --exa) COMP_CWORD=1; _logos_show; echo \"\${COMPREPLY[*]}\""
    [ "$(bash -c "$words")" = --examples ]
}

# A package uses the runtime that is installed.
builds_with_it() {
    cargo new --quiet --vcs none --name uses "$room/uses" || return
    echo "logos = { path = \"$room/release/share/logos/rust/logos\" }" >> "$room/uses/Cargo.toml"
    printf '#[derive(logos::Logos, Debug)]\nenum T { #[token("a")] A }\nfn main() { println!("{:?}", <T as logos::Logos>::lexer("a").next()); }\n' > "$room/uses/src/main.rs"
    [ "$(cd "$room/uses" && cargo run --offline --quiet)" = 'Some(Ok(A))' ]
}

replaces_itself() {
    installs "$room/release" && [ "$(ls "$room/release/share")" = logos ]
}

# Nothing changes where a file that no release has put there is in the way, or one that was changed.
refuses() {
    find "$room/release" -type f -exec sha256sum {} + | sort > "$room/before"
    ! installs "$room/release" && grep -q ': nothing is installed$' "$room/said" \
        && find "$room/release" -type f -exec sha256sum {} + | sort | cmp -s - "$room/before"
}

refuses_other_files() {
    local at
    for at in share/logos/docs/own.md bin/logos_show; do
        cp -p "$room/release/$at" "$room/saved" 2> /dev/null
        echo 'my own' > "$room/release/$at"
        refuses || return
        rm "$room/release/$at"
        [ ! -e "$room/saved" ] || mv "$room/saved" "$room/release/$at"
    done
    rm -rf "$room/release/share/logos"
    refuses
}

refuses_changed_release() {
    echo >> "$room"/logos-*-linux/rust/logos/README.md
    ! installs "$room/changed" && [ ! -e "$room/changed/bin/logos" ]
}

refuses_changed_clone() {
    echo >> "$room/one/README.md"
    ! packs "$room/one" 2> /dev/null
}

expect 'programs, packages and pages state one version' states_one_version
expect 'two clones of one commit pack the same bytes' packs_the_same
expect 'what is packed is installed, and shows the items in README.md' shows_items
expect 'what is installed names its commit' names_commit
expect 'the playground that was built of this commit is installed' has_playground
expect 'the completions for shells are installed' has_completions
expect 'a package uses what is installed' builds_with_it
expect 'a release takes the place of another one' replaces_itself
expect 'other files stay, and nothing is installed' refuses_other_files
expect 'a packed file that has changed is refused' refuses_changed_release
expect 'a clone with changes is refused' refuses_changed_clone
counts
