#!/usr/bin/env python3
"""Looks at the pages: their widths and lengths, and whether what they name is there.

  pages.py

A line of prose has at most 100 columns; rows of tables, blocks of code and lines of one long word
are left out. `LINES` and `WORDS` are the limits of single pages, and `ALL_WORDS` is that of all
pages together, except the page that is made and those of wrong bodies. A word is a run of
characters without blanks that has a letter or a digit, also in blocks of code. Each path of a crate
in backticks has to be there, each page and heading to which a link leads, and each function of the
walk in `docs/MAP.md` in its file, once on that page. A commit that a page names has to be in the
history, if the clone has all of it. Each page counts as one, and so does each path, link, commit
and function. The last line is `pages: N passed, M failed`."""
import os
import re
import subprocess

from common import ROOT, finish, has_option, listed, read

WIDTH = 100
# With fewer that pass, pages or rows were lost, or are no longer read.
LEAST = 200
# The most lines of a page, the most words of one, and of all to be read.
LINES = {"README.md": 110, "docs/MAP.md": 220}
WORDS = {"docs/GUIDE.md": 4500}
ALL_WORDS = 45000
MADE = "crates/README.md"
# The most functions of the walk.
WALK = 42


def prose(text):
    """Yields the number and the text of each line outside of tables and of blocks of code."""
    fenced = False
    for number, line in enumerate(text.split("\n"), 1):
        if line.lstrip().startswith("```"):
            fenced = not fenced
        elif not fenced and not line.startswith("|"):
            yield number, line


def width_faults(path, text):
    """Yields the lines of a page that are too wide."""
    for number, line in prose(text):
        if len(line) > WIDTH and " " in line.strip().lstrip("-*# "):
            yield f"{path}:{number}: {len(line)} columns"


def count_words(text):
    """Returns the number of words: bars of tables and lone signs are none."""
    return len(re.findall(r"\S*\w\S*", text))


def length_faults(path, text):
    """Yields what is too long about a page."""
    lines, words = text.count("\n"), count_words(text)
    if lines > LINES.get(path, lines):
        yield f"{path}: {lines} lines, at most {LINES[path]}"
    if words > WORDS.get(path, words):
        yield f"{path}: {words} words, at most {WORDS[path]}"


def path_faults(path, text):
    """Yields, for each path of a crate that a page names, the fault if it is not there, and else
    None."""
    for name in sorted(set(re.findall(r"`((?:crates/)?logos_\w+/[\w./]+)`", text))):
        place = f"{ROOT}/crates/{name.removeprefix('crates/')}"
        if not re.search(r"/out(/|$)", place):
            yield None if os.path.exists(place) else f"{path}: {name} is not there"


def headings(text):
    """Returns the names by which links lead to the headings of a page."""
    titles = [line.lstrip("#").strip().lower() for _, line in prose(text) if line.startswith("#")]
    return {re.sub(r"[^\w\- ]", "", title).replace(" ", "-") for title in titles}


def link_faults(path, text):
    """Yields, for each link of a page to another one or to a heading, the fault if nothing is
    there, and else None."""
    for name, heading in re.findall(r"\]\(([^)#:\s]*)(?:#([^)\s]*))?\)", text):
        place = os.path.normpath(f"{ROOT}/{os.path.dirname(path)}/{name}") if name else f"{ROOT}/{path}"
        is_there = os.path.exists(place)
        if is_there and heading:
            is_there = heading in headings(read(place))
        yield None if is_there else f"{path}: nothing is at {name}{'#' if heading else ''}{heading}"


def history():
    """Returns the first eight digits of each commit, or None if the clone lacks some."""
    git = {"cwd": ROOT, "capture_output": True, "text": True, "check": False}
    shallow = subprocess.run(["git", "rev-parse", "--is-shallow-repository"], **git).stdout.strip()
    listed = subprocess.run(["git", "rev-list", "--abbrev-commit", "--abbrev=8", "HEAD"], **git).stdout
    return {name[:8] for name in listed.split()} if shallow == "false" else None


def commit_faults(path, text, known):
    """Yields, for each commit that a page names, the fault if it is not in the history, and else
    None."""
    for name in sorted(set(re.findall(r"(?<![\w.])(?=\d*[a-f])(?=[a-f]*\d)[0-9a-f]{8}(?!\w)", text))):
        yield None if name in known else f"{path}: no commit {name} is in the history"


def walk_faults(text):
    """Yields, for each function of the walk, the fault if it is not in its file, and else None."""
    walk = text.split("## From `main` to the first item")[1].split("\n## ")[0]
    count = 0
    for names, place in re.findall(r"^\| (`[^|]+`) \| `([^`]+)` \|$", walk, re.M):
        code = read(f"crates/{place}")
        for name in re.findall(r"`(\w+)`", names):
            count += 1
            yield None if re.search(rf"\bfn {name}\b", code) else f"docs/MAP.md: {place} has no function {name}"
    if not 0 < count <= WALK:
        yield f"docs/MAP.md: the walk has {count} functions, at most {WALK}"


def main():
    has_option()
    passed, faults, words, known = 0, [], 0, history()
    for path in listed("*.md"):
        text = read(path)
        found = [*width_faults(path, text), *length_faults(path, text)]
        passed += not found
        faults += found
        words += 0 if path == MADE or "/must-fail/" in path else count_words(text)
        commits = commit_faults(path, text, known) if known else []
        for fault in [*path_faults(path, text), *link_faults(path, text), *commits]:
            passed += fault is None
            faults += [fault] if fault else []
        if path == "docs/MAP.md":
            for fault in walk_faults(text):
                passed += fault is None
                faults += [fault] if fault else []
    if words > ALL_WORDS:
        faults.append(f"all pages: {words} words, at most {ALL_WORDS}")
    print(f"pages: {words} words")
    finish("pages", passed, faults, LEAST)


main()
