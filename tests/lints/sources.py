#!/usr/bin/env python3
"""Looks, without a proof, for what makes `rt ci` refuse a repository or a crate at once.

  sources.py

Each crate of `crates.txt` has to be as `rt fmt` leaves it. Files of the toolchain stand in the
folders `src`, `specs` and `proofs` of crates alone, and a list of crates at the top alone: other
sources have names that end with `.in`. The last line is `sources: N passed, M failed`: one for each
crate, and one for the places of files."""
import os
import re
import subprocess
import sys
from concurrent.futures import ThreadPoolExecutor

from common import ROOT, listed

sys.path.insert(0, f"{ROOT}/tools")
import crates

# Where files of the toolchain may stand.
PLACES = re.compile(r"crates/\w+/(src/.*\.rt|(specs|proofs)/.*\.antt)|crates\.txt")


def misplaced():
    """Returns the paths of the files of the toolchain that stand where none may."""
    of_toolchain = ("crates.txt", "BUILD.bazel", "MODULE.bazel")
    return [path for path in listed() if (path.endswith((".rt", ".antt")) or os.path.basename(path) in of_toolchain) and not PLACES.fullmatch(path)]


def files_of(name):
    """Returns the paths of the sources, definitions and proofs of a crate."""
    return sorted(f"{at}/{it}" for part in ("src", "specs", "proofs") for at, _, files in os.walk(f"{ROOT}/crates/{name}/{part}")
                  for it in files if it.endswith((".rt", ".antt")))


def unformatted(at, names):
    """Yields the path of each file of these crates that `rt fmt` would change or cannot read, and
    what is wrong with it. Its formatter is asked about many files at a time."""
    paths = [path for name in names for path in files_of(name)]
    jobs = len(os.sched_getaffinity(0))

    def look(some):
        return subprocess.run([f"{at}/bin/rattle", "fmt", "--check", *some], stdin=subprocess.DEVNULL, stdout=subprocess.DEVNULL, stderr=subprocess.PIPE, text=True)

    with ThreadPoolExecutor(jobs) as pool:
        for ran in pool.map(look, filter(None, (paths[number::jobs] for number in range(jobs)))):
            found = re.findall(r"^(.+?\.(?:rt|antt)):? (.*)", ran.stderr, re.M)
            if ran.returncode and not found:
                crates.fail(f"the formatter fails: {ran.stderr.strip()[-400:]}")
            yield from found


def main():
    names = sorted(name for name in os.listdir(f"{ROOT}/crates") if os.path.isdir(f"{ROOT}/crates/{name}/src"))
    changed = {name: [] for name in names}
    for path, wrong in unformatted(crates.kit(), names):
        changed[os.path.relpath(path, f"{ROOT}/crates").split("/")[0]].append(f"{os.path.relpath(path, ROOT)}: {wrong}")
    wrong = [f"{path} may not stand there: files of the toolchain stand in crates alone" for path in misplaced()]
    for line in [*wrong, *(line for lines in changed.values() for line in lines)]:
        print(f"sources: {line}")
    failed = bool(wrong) + sum(map(bool, changed.values()))
    print(f"sources: {len(names) + 1 - failed} passed, {failed} failed")
    return 1 if failed else 0


if __name__ == "__main__":
    sys.exit(main())
