# Read by run.sh: switches packages that use the crate from the registry, each way that
# rust/logos/README.md shows.

# NAME LINE: copies the package of switched/, with another line for its dependency.
switch() {
    mkdir -p "$room/places"
    cp -r "$here/switched" "$room/places/$1"
    sed -i "s|^logos = \"0.16\"\$|$2|" "$room/places/$1/Cargo.toml"
}

# NAME WORD ..: runs a package, and compares what it prints. Cargo has these words.
run_place() {
    prints "the package by $1" "$here/switched/expected" cargo run --quiet "${@:2}" --manifest-path "$room/places/$1/Cargo.toml"
}

# Makes a repository of the sources as they are here, which git clones.
make_repository() {
    mkdir "$room/clone"
    tar -C "$root" --exclude=./.git --exclude=target --exclude=./out --exclude=./crates/*/out -c . | tar -C "$room/clone" -x
    git -C "$room/clone" init -q
    git -C "$room/clone" add -A
    git -C "$room/clone" -c user.name=t -c user.email=t commit -qm t
    git clone -q --bare "$room/clone" "$room/repository"
}

by_path() {
    switch path "logos = { path = \"$root/rust/logos\" }"
    diff -r "$here/switched" "$room/places/path" | grep '^[<>]' | cut -c1-9 > "$room/lines"
    printf '%s\n' '< logos =' '> logos =' > "$room/two_lines"
    compare 'the lines that switch a package' "$room/two_lines" "$room/lines"
    run_place path --offline
}

# The whole tree of a package and a dependency takes another crate, by three lines at its end.
by_patch() {
    cp -r "$here/tree" "$room/places/patch"
    printf '\n[patch.crates-io]\nlogos = { path = "%s" }\n' "$root/rust/logos" >> "$room/places/patch/Cargo.toml"
    prints 'a tree by [patch.crates-io]' "$here/tree/expected" cargo run --offline --quiet --manifest-path "$room/places/patch/Cargo.toml"
    cargo tree --offline --prefix none --edges normal --manifest-path "$room/places/patch/Cargo.toml" > "$room/found" 2>&1
    has_our_crate_once
}

# The crate of this repository is in the tree that cargo printed, and no other of its name.
has_our_crate_once() {
    expect 'the crate of this repository, once' [ "$(grep -c '^logos v' "$room/found"):$(grep -cF "($root/rust/logos)" "$room/found")" = 2:2 ]
}

# A tree with a Cargo.lock that names the crate of the registry.
by_patch_and_update() {
    local package=$room/places/locked
    cp -r "$here/tree" "$package"
    cp "$here/tree/registry.lock" "$package/Cargo.lock"
    printf '\n[patch.crates-io]\nlogos = { path = "%s" }\n' "$root/rust/logos" >> "$package/Cargo.toml"
    expect 'cargo update in a tree with a Cargo.lock' cargo update --offline --quiet logos --manifest-path "$package/Cargo.toml"
    prints 'a tree with a Cargo.lock' "$here/tree/expected" cargo run --offline --quiet --manifest-path "$package/Cargo.toml"
    cargo tree --offline --prefix none --edges normal --manifest-path "$package/Cargo.toml" > "$room/found" 2>&1
    has_our_crate_once
}

by_git() {
    switch git "logos = { git = \"file://$room/repository\" }"
    run_place git
    run_place git --locked
}

# Vendors what the package by git needs. Then neither the repository nor what Cargo has of it is
# there any more.
by_vendoring() {
    cp -r "$room/places/git" "$room/places/vendoring"
    mkdir "$room/places/vendoring/.cargo"
    (cd "$room/places/vendoring" && cargo vendor > .cargo/config.toml 2> "$room/found")
    expect 'the vendored packages' [ -f "$room/places/vendoring/vendor/logos/Cargo.toml" ]
    mv "$room/repository" "$room/repository_away"
    CARGO_HOME=$room/home/other prints 'the package by vendoring' "$here/switched/expected" \
        env -C "$room/places/vendoring" cargo run --offline --quiet
    mv "$room/repository_away" "$room/repository"
}

# A submodule in a folder of a workspace, which is left out of it.
by_submodule() {
    local workspace=$room/places/workspace
    mkdir -p "$workspace/members" "$workspace/third_party"
    git -C "$workspace" init -q
    git -C "$workspace" -c protocol.file.allow=always submodule --quiet add "file://$room/repository" third_party/logos
    cp -r "$here/switched" "$workspace/members/calculator"
    sed -i 's|^logos = "0.16"$|logos = { path = "../../third_party/logos/rust/logos" }|' "$workspace/members/calculator/Cargo.toml"
    printf '[workspace]\nresolver = "2"\nmembers = ["members/*"]\nexclude = ["third_party/logos"]\n' > "$workspace/Cargo.toml"
    prints 'a submodule in a workspace' "$here/switched/expected" cargo run --offline --quiet --manifest-path "$workspace/Cargo.toml"
}

# No package needs a program: neither one on the path nor in the home.
needs_no_program() {
    ! command -v logos_cli && [ ! -e "$HOME/.local" ]
}

places() {
    mkdir -p "$room/places"
    expect 'no program is needed' needs_no_program
    by_path
    by_patch
    by_patch_and_update
    make_repository
    by_git
    by_vendoring
    by_submodule
}
