#!/usr/bin/env python3
"""Looks at the pages of wrong bodies, in each crate's folder `must-fail`.

  bodies_pages.py

Each body has to be applicable: each text that it changes stands once in its file. A body whose text
has changed would else be found only when all bodies are tried. Each body counts as one. The last
line is `bodies_pages: N passed, M failed`."""
import sys
from pathlib import Path

from common import ROOT, finish

sys.path.insert(0, f"{ROOT}/tests/wrong_bodies")
from bodies import BadPage, bodies_of  # noqa: E402

PAGES = ("gate.md", "others.md")
# With fewer that pass, pages were lost, or are no longer read.
LEAST = 650


def faults_of(folder):
    """Returns how many bodies the pages of a crate have, and what is wrong with them."""
    try:
        bodies = bodies_of(folder, PAGES)
    except BadPage as error:
        return 1, [str(error)]
    return len(bodies), [f"{body.label}: {body.fault}" for body in bodies if body.fault]


def main():
    passed, failed = 0, []
    for folder in sorted(Path(ROOT, "crates").iterdir()):
        if folder.is_dir():
            count, faults = faults_of(folder)
            failed += faults
            passed += count - len(faults)
    if passed < LEAST:
        failed.append(f"{passed} passed, and {LEAST} have to")
    finish("bodies_pages", passed, failed)


main()
