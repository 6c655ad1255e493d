#!/usr/bin/env python3
"""Makes the page `crates/README.md` from `crates.txt` and from the first comment of each crate, or
compares it. Compares the sections and the libraries in `crates.txt` with the crates.

  crates_page.py           fails where the page or `crates.txt` differs from the crates
  crates_page.py --write   writes the page

`crates.txt` has a line `# TITLE: CONTENTS` for each section, and below it the section's crates.
Each crate is in one section. No crate uses one of a later section, nor one further down in its own.
The libraries of a crate are those that its `.rt` and `.antt` files cite, as `NAME::` or
`Rattle.NAME.`, apart from comments: none is missing and none is idle.

`CONTRIBUTING.md` states how many crates depend on some of them, as ``43 crates for `NAME` `` or
``32 for `NAME` ``: each of these numbers is compared, and `--write` writes it.

The purpose of a crate is the first paragraph of the comment at the top of its `src/lib.rt` or
`src/main.rt`. The last line is `crates_page: N passed, M failed`: a crate counts as one, and so
does the page."""
import glob
import os
import re
import textwrap

from common import ROOT, finish, has_option, read

PAGE = f"{ROOT}/crates/README.md"
GUIDE = f"{ROOT}/CONTRIBUTING.md"
COUNT = re.compile(r"(\d+)( (?:crates )?for\s+`(logos_\w+)`)")
LEAST = 50
WIDTH = 100
HEAD = """\
# The crates

Each crate has one purpose and is proved by itself. The sections are in order: a crate uses only
those of earlier sections and those above it in its own. `docs/MAP.md` shows the flow of data
through them, and the files of each thing.

In each crate `src/` is the code with its contracts, `specs/` the definitions that contracts cite,
`proofs/` the proofs, and `must-fail/` wrong bodies that the prover refuses.

This page is made by `python3 tests/lints/crates_page.py --write`.
"""


def sections():
    """Returns the sections of `crates.txt`: the title of each, and its crates with the libraries
    that they use."""
    found = []
    for line in read("crates.txt").split("\n"):
        title = re.fullmatch(r"# (\w+(?: \w+)*): (.*)", line)
        name, colon, below = line.split("#")[0].partition(":")
        if title:
            found.append((title[1], title[2], {}))
        elif colon and found:
            found[-1][2][name.split()[0]] = below.split()
    return found


def order_faults(found):
    """Yields each library that stands further down than a crate that uses it."""
    above, named = set(), {name for _, _, crates in found for name in crates}
    for title, _, crates in found:
        for name, libraries in crates.items():
            below = [it for it in libraries if it in named - above]
            yield from (f"crates.txt: {name} of the section {title} uses {it}, which stands further down" for it in below)
            above.add(name)


def cited(crate):
    """Returns what stands as the name of a library in the files of a crate, comments left out."""
    found = set()
    for kind, comment in (("rt", "//"), ("antt", "--")):
        for folder in ("src", "specs", "proofs"):
            for path in glob.glob(f"{ROOT}/crates/{crate}/{folder}/**/*.{kind}", recursive=True):
                text = re.sub(rf"(?m)^ *{comment}.*", "", read(path))
                found.update(one or other for one, other in re.findall(r"\bRattle\.(\w+)|\b(\w+)::", text))
    return found - {crate}


def library_faults(found):
    """Yields each library that a crate lists and no file of it cites, and each that one cites and
    the crate does not list."""
    every = {name for _, _, crates in found for name in crates}
    every.update(it for _, _, crates in found for libraries in crates.values() for it in libraries)
    for _, _, crates in found:
        for name, libraries in crates.items():
            used = cited(name) & every
            yield from (f"crates.txt: no file of {name} cites {it}" for it in libraries if it not in used)
            yield from (f"crates.txt: {name} cites {it}, which it does not list" for it in sorted(used - set(libraries)))


def purpose(crate):
    """Returns the first paragraph of the comment at the top of a crate, or nothing if there is
    none."""
    for name in ("lib.rt", "main.rt"):
        path = f"{ROOT}/crates/{crate}/src/{name}"
        if os.path.exists(path):
            comment = re.match(r"(?://! .*\n)+", read(path))
            return " ".join(re.findall(r"//! (.*)", comment[0])) if comment else ""
    return ""


def users(found):
    """Returns the crates that use each crate."""
    used = {}
    for _, _, crates in found:
        for name, below in crates.items():
            for it in below:
                used.setdefault(it, []).append(name)
    return used


def above(used, name):
    """Returns the crates that depend on a crate."""
    met, ahead = set(), [name]
    while ahead:
        ahead.extend(set(used.get(ahead.pop(), [])) - met)
        met.update(ahead)
    return met


def with_counts(text, found):
    """Returns the text with the number of crates above each crate of which it states one."""
    used = users(found)
    return COUNT.sub(lambda it: f"{len(above(used, it[3]))}{it[2]}", text)


def page(found):
    """Returns the text of the page."""
    out = [HEAD]
    for title, about, crates in found:
        out.append(f"\n## {title}\n\n" + textwrap.fill(about[0].upper() + about[1:] + ("" if about.endswith(".") else "."), WIDTH) + "\n")
        for name in crates:
            out.append("\n" + textwrap.fill(f"**`{name}`**: {purpose(name)}", WIDTH) + "\n")
    return "".join(out)


def main():
    is_written = has_option("--write")
    found = sections()
    text = page(found)
    guide = with_counts(read(GUIDE), found)
    if is_written:
        for path, made in ((PAGE, text), (GUIDE, guide)):
            with open(path, "w", encoding="utf-8") as out:
                out.write(made)
    named = [name for _, _, crates in found for name in crates]
    faults = [f"{name} is in no section of crates.txt" for name in sorted(os.listdir(f"{ROOT}/crates"))
              if os.path.isdir(f"{ROOT}/crates/{name}/src") and name not in named]
    faults += [f"{name} has no comment at its top" for name in named if not purpose(name)]
    faults += [f"{name} is named twice in crates.txt" for name in set(named) if named.count(name) > 1]
    faults += [*order_faults(found), *library_faults(found)]
    if not os.path.exists(PAGE) or read(PAGE) != text:
        faults.append("crates/README.md is not what the crates give: run crates_page.py --write")
    if not COUNT.search(guide) or read(GUIDE) != guide:
        faults.append("CONTRIBUTING.md states other numbers of crates: run crates_page.py --write")
    finish("crates_page", max(len(named) + 1 - len(faults), 0), faults, LEAST)


main()
