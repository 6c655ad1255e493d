#!/usr/bin/env python3
"""Looks at the lemmas that proofs cite from the crates below.

  lemmas.py

A proof uses the contracts of the functions that it calls, and lemmas. A lemma of another crate has
to be about definitions alone: its module, and each module of lemmas that this one needs, uses from
the crates of this repository only definitions and such modules, never what is made from a
function's body or contract. Each module that a proof of another crate cites counts as one. The last
line is `lemmas: N passed, M failed`."""
import glob
import os
import re

from common import ROOT, finish, has_option, read

# With fewer that pass, proofs were lost, or are no longer read.
LEAST = 100
USE = re.compile(r"^(?:pub )?use Rattle\.(logos_\w+)\.(\w+)((?:\.\w+)*)", re.M)


def uses(path):
    """Yields what the file at a path uses from the crates: the crate, the folder there, and the
    path of the module."""
    for crate, folder, names in USE.findall(read(path)):
        yield crate, folder, f"crates/{crate}/{folder}{names.replace('.', '/')}.antt"


def faults_of(path, seen):
    """Yields what a module of lemmas uses, itself or by others, that is no definition and no module
    of lemmas."""
    seen.add(path)
    for _, folder, other in uses(path):
        is_lemmas = folder == "proofs" and os.path.exists(f"{ROOT}/{other}")
        if is_lemmas and other not in seen:
            yield from faults_of(other, seen)
        elif not is_lemmas and folder != "specs":
            yield f"{path} uses {other}"


def main():
    has_option()
    cited = {}
    for whole in sorted(glob.glob(f"{ROOT}/crates/*/proofs/**/*.antt", recursive=True)):
        path = os.path.relpath(whole, ROOT)
        own = path.split("/")[1]
        for crate, folder, other in uses(path):
            if crate != own and folder == "proofs":
                cited.setdefault(other, path)
    passed, faults = 0, []
    for other, path in sorted(cited.items()):
        is_there = os.path.exists(f"{ROOT}/{other}")
        found = list(faults_of(other, set())) if is_there else [f"{path} uses {other}"]
        passed += not found
        faults += found
    finish("lemmas", passed, faults, LEAST)


main()
