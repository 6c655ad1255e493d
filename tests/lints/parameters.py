#!/usr/bin/env python3
"""Counts the functions with many parameters, `self` included.

  parameters.py

For each crate it prints how many functions it has, and how many of them have five parameters or
more and six. No function may have more than six parameters, and no crate more than ten functions
with five or more, but for `logos_show` and for the program of tests/calls, which only answers rows.
Each bound counts once for each crate. The last line is `parameters: N passed, M failed`."""
import re

from common import finish, has_option, read, sources

MANY = 5
MOST = 6
IN_A_CRATE = 10
# Contracts of `logos_show` follow files, clock, errors and output to the exit status. They cannot
# follow a `&mut` inside a struct, so these are parameters of their own.
IN_SHOW = 25
TESTS = "tests/calls"


def after_generics(text, at):
    """Returns where the generic parameters end that begin there, or the same place where none
    do."""
    depth = 0
    while at < len(text):
        depth += (text[at] == "<") - (text[at] == ">" and text[at - 1] != "-")
        if depth == 0:
            return at + (text[at] == ">")
        at += 1
    return at


def parameters(text, at):
    """Returns how many parameters the list has whose parenthesis opens there."""
    depth = angles = count = 0
    is_begun = False
    for at in range(at, len(text)):
        c = text[at]
        depth += (c in "([{") - (c in ")]}")
        angles += (c == "<") - (c == ">" and text[at - 1] != "-")
        if depth == 0:
            break
        if c == "," and depth == 1 and angles == 0:
            count += is_begun
            is_begun = False
        elif not c.isspace() and not (c == "(" and depth == 1):
            is_begun = True
    return count + is_begun


def functions(path):
    """Yields the name of each function of a file, and its number of parameters."""
    text = re.sub(r"//[^\n]*", "", read(path))
    for found in re.finditer(r"\bfn\s+(\w+)", text):
        at = after_generics(text, found.end())
        if at < len(text) and text[at] == "(":
            yield found[1], parameters(text, at)


def main():
    has_option()
    passed, failed = 0, []
    for crate, _, paths in sources():
        found = [it for path in paths for it in functions(path)]
        many = [it for it in found if it[1] >= MANY]
        long = [name for name, count in found if count > MOST]
        most = IN_SHOW if crate == "logos_show" else len(many) if crate == TESTS else IN_A_CRATE
        print(f"{crate:22} {len(found):5} functions  {MANY} or more {len(many):3}  {MOST} {sum(count >= MOST for _, count in many):3}")
        too_many = [f"{crate}: {', '.join(name for name, _ in many)} have {MANY} parameters or more"] * (len(many) > most)
        for faults in [f"{crate}: {name} has more than {MOST} parameters" for name in long[:1]], too_many:
            passed += bool(found) and not faults
            failed += faults
    finish("parameters", passed, failed)


main()
