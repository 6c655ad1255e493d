#!/usr/bin/env python3
"""Counts the lines of code of each function and each file. Contracts, ghost lines, comments and
blank lines are not code.

  lengths.py

For each crate it prints the lines of its longest function and file. A function has at most 40
lines, from its name to its last brace, and a file at most 400. A block of `ghost use` lines, at the
top of a file or of an `impl`, has at most four, and those of a crate have at most 8, and 35 more
for each thousand lines of its code. A number of three digits or more in a clause has a name, but
for 256. Each bound counts once for each crate. The last line is `lengths: N passed, M failed`."""
import os
import re

from common import ROOT, finish, has_option, read, sources

OF_A_FUNCTION = 40
OF_A_FILE = 400
OF_A_BLOCK = 4
OF_SMALL_CRATES, OF_A_THOUSAND = 8, 35
CLAUSE = re.compile(r"\s*(?:ensures|requires|invariant)\b")
NUMBER = re.compile(r"(?<![\w.])(?!256\b)\d{3,}(?!\w)")
GHOST = re.compile(r"\s*(ghost\b|ensures\b|requires\b|invariant\b|decreases\b|#!?\[tactic)")
FUNCTION = re.compile(r"\s*(?:pub(?:\([a-z]+\))? )?(?:const )?(?:unsafe )?fn (\w+)")


def lines_of_crate(path):
    """Yields the lines of a file that are code. Braces of contracts can stand on several lines."""
    depth = 0
    for line in read(path).split("\n"):
        if depth > 0:
            depth += line.count("{") - line.count("}")
        elif GHOST.match(line):
            depth = max(0, line.count("{") - line.count("}"))
        elif line.strip() and not line.strip().startswith("//"):
            yield line


def functions(lines):
    """Yields the name and the number of lines of each function. As `rt fmt` lays files out, its
    last brace stands as far right as its first word."""
    for at, line in enumerate(lines):
        found = FUNCTION.match(line)
        if not found:
            continue
        margin = line[: len(line) - len(line.lstrip())]
        for end in range(at, len(lines)):
            if lines[end].startswith(margin + "}") or (end == at and line.endswith(("}", ";"))):
                yield found[1], end - at + 1
                break


def blocks(path):
    """Yields the number of the first line of each block of `ghost use` lines of a file, and how
    many lines it has."""
    count = 0
    for number, line in enumerate(read(path).split("\n"), 1):
        if line.strip().startswith("ghost use "):
            count += 1
        elif count:
            yield number - count, count
            count = 0


def numbers(path):
    """Yields the line of each number of three digits or more in a clause."""
    depth = 0
    for at, line in enumerate(read(path).split("\n"), 1):
        if depth > 0 or CLAUSE.match(line):
            depth += line.count("{") - line.count("}")
            yield from (at for _ in NUMBER.finditer(line.split("//")[0]))


def main():
    has_option()
    passed, failed = 0, []
    for crate, folder, paths in sources():
        files = {path: list(lines_of_crate(path)) for path in paths}
        found = sorted(((count, name, path) for path, lines in files.items() for name, count in functions(lines)), reverse=True)
        longest = max((len(lines), path) for path, lines in files.items())
        of_crate = sum(len(lines) for lines in files.values())
        print(f"{crate:22} {of_crate:5} lines, {len(found):4} functions, the longest {found[0][0] if found else 0:3}; the longest file {longest[0]:4}")
        long = [f"{crate}: {name} in {os.path.relpath(path, folder)} has {count} lines" for count, name, path in found if count > OF_A_FUNCTION]
        walls = [(path, *block) for path in files for block in blocks(path)]
        of_walls = sum(count for _, _, count in walls)
        most = OF_SMALL_CRATES + OF_A_THOUSAND * of_crate // 1000
        large = [f"{crate} has {of_walls} lines of ghost use, at most {most}"] * (of_walls > most)
        high = [f"{os.path.relpath(path, ROOT)}:{line}: {count} lines of ghost use" for path, line, count in walls if count > OF_A_BLOCK]
        bare = [f"{os.path.relpath(path, ROOT)}:{line}: a number without a name stands in a clause" for path in files for line in numbers(path)]
        for faults in large, high, bare, long, [f"{os.path.relpath(path, ROOT)} has {len(lines)} lines" for path, lines in files.items() if len(lines) > OF_A_FILE]:
            passed += not faults
            failed += faults
    finish("lengths", passed, failed)


main()
