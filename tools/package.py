#!/usr/bin/env python3
"""Makes the Cargo packages as plain Rust: tools/package.py [--sources] FOLDER

In FOLDER/packages lies a workspace with each package of `rust/` that others may use. What build
scripts make of `crates/` lies in it as sources, so a package needs neither the crates nor a build
script. Then `cargo package` makes FOLDER/NAME-VERSION.crate of each, and builds what it has packed,
without a network; --sources leaves this out. The last line is `package: N packages`."""
import json
import os
import re
import shutil
import subprocess
import sys

ROOT = os.path.dirname(os.path.dirname(os.path.realpath(__file__)))
# The packages in the order in which they use one another.
PACKAGES = ["rattle-std", "logos-codegen", "logos-derive", "logos", "logos-cli"]
# Those with erased crates.
ERASED = ["logos-codegen", "logos-cli"]
# What a source of such a package has where its modules are included.
INCLUDED = 'include!(concat!(env!("OUT_DIR"), "/crates.rs"));\n'


def cargo(*words, **options):
    """Runs cargo without a network, and ends where it fails."""
    done = subprocess.run(["cargo", *words, "--offline"], **options)
    if done.returncode != 0:
        sys.exit(f"package: cargo {words[0]} fails")
    return done


def erased_folders(target):
    """Returns the folder into which the build script of each package has erased its crates."""
    words = [word for name in ERASED for word in ("-p", name)]
    done = cargo("check", "--quiet", "--message-format=json", "--target-dir", target, *words,
                 cwd=ROOT, stdout=subprocess.PIPE, text=True)
    folders = {}
    for line in done.stdout.splitlines():
        message = json.loads(line)
        if message["reason"] == "build-script-executed":
            name = re.search(r"([\w-]+)[#@][\d.+]+$", message["package_id"])[1]
            folders[name] = message["out_dir"]
    return folders


def commit():
    """Returns the commit of this clone, or nothing if a file has changed since."""
    git = ["git", "-C", ROOT]
    changes = subprocess.run([*git, "status", "--porcelain"], capture_output=True, text=True)
    if changes.returncode != 0 or changes.stdout:
        return ""
    return subprocess.run([*git, "rev-parse", "HEAD"], capture_output=True, text=True).stdout.strip()


def rewrite(path, change):
    """Rewrites a file by a function of its text."""
    with open(path) as file:
        text = file.read()
    with open(path, "w") as file:
        file.write(change(text))


def plain_manifest(text):
    """Returns a manifest without what finds and erases crates."""
    text = re.sub(r"\[build-dependencies\]\n(.+\n)+", "", text)
    text = re.sub(r'^include = .*$', 'include = ["src/**", "README.md"]', text, flags=re.M)
    return text.rstrip() + "\n"


def put_modules(package, folder):
    """Puts erased crates into the sources of a package, in the place of its build script."""
    source = f"{package}/src"
    for name in sorted(os.listdir(folder)):
        path = f"{folder}/{name}"
        if name != "crates.rs" and os.path.exists(f"{source}/{name}"):
            sys.exit(f"package: {source} has a file {name} of its own")
        if os.path.isdir(path):
            shutil.copytree(path, f"{source}/{name}")
        elif name != "crates.rs":
            shutil.copy(path, source)
    with open(f"{folder}/crates.rs") as file:
        declarations = file.read()
    rewrite(f"{source}/lib.rs", lambda text: text.replace(INCLUDED, declarations))
    rewrite(f"{package}/Cargo.toml", plain_manifest)
    os.remove(f"{package}/build.rs")


def make_packages(room, folders):
    """Copies the packages into a workspace, without links, and with modules in them."""
    for name in PACKAGES:
        package = f"{room}/{name}"
        links = shutil.ignore_patterns("bazel-*", "tests", "target")
        shutil.copytree(f"{ROOT}/rust/{name}", package, ignore=links)
        for licence in ("LICENSE-APACHE", "LICENSE-MIT"):
            shutil.copy(f"{ROOT}/{licence}", package)
        # Packages that are not for publishing cannot be packed together.
        rewrite(f"{package}/Cargo.toml", lambda text: text.replace("publish = false\n", ""))
        if name in folders:
            put_modules(package, folders[name])
    line = 'env!("LOGOS_COMMIT")'
    rewrite(f"{room}/logos-cli/src/programs.rs", lambda text: text.replace(line, f'"{commit()}"'))
    with open(f"{ROOT}/Cargo.toml") as file:
        profile = file.read().partition("[profile")
    with open(f"{room}/Cargo.toml", "w") as file:
        members = ", ".join(f'"{name}"' for name in PACKAGES)
        file.write(f'[workspace]\nresolver = "3"\nmembers = [{members}]\n\n{"".join(profile[1:])}')


def main():
    words = [word for word in sys.argv[1:] if word != "--sources"]
    if len(words) != 1 or words[0].startswith("-"):
        sys.exit("usage: tools/package.py [--sources] FOLDER")
    to = os.path.abspath(words[0])
    room, target = f"{to}/packages", f"{to}/target"
    shutil.rmtree(room, ignore_errors=True)
    os.makedirs(room)
    make_packages(room, erased_folders(target))
    if "--sources" in sys.argv:
        print(f"package: {len(PACKAGES)} packages")
        return
    cargo("package", "--quiet", "--workspace", "--allow-dirty", "--target-dir", target, cwd=room)
    packed = [name for name in os.listdir(f"{target}/package") if name.endswith(".crate")]
    for name in packed:
        shutil.copy(f"{target}/package/{name}", to)
    if len(packed) != len(PACKAGES):
        sys.exit(f"package: {len(packed)} packages, wanted {len(PACKAGES)}")
    print(f"package: {len(packed)} packages")


main()
