#!/usr/bin/env python3
"""Compares the Rust texts that `logos gen` prints with stored ones, word for word.

  run.py LOGOS

Beside each source NAME.rs of this folder stand its texts, NAME.state_machine.txt and
NAME.tailcall.txt. They were put together from the templates of the crate, by the graph of the
source as it is worked out by hand, and not taken from the program. A stored text is laid out in
lines; the printed one has one space between its words, a line end where the stored one has `↵`, and
ends its last line. The script fails where a file of the list is missing, and where another one
stands."""
import os
import re
import sys
from itertools import product, zip_longest

HERE = os.path.dirname(os.path.realpath(__file__))
sys.path.insert(0, os.path.dirname(HERE))
from checks import Checks, read  # noqa: E402

SOURCES = "callbacks comments comparisons generics jumps letters marks nothing shared tables unsaid".split()
SHAPES = ("state_machine", "tailcall")


def main(program):
    checks = Checks("expected_rust", program)
    texts = [f"{name}.{shape}.txt" for name, shape in product(SOURCES, SHAPES)]
    files = {"README.md", "run.py", *texts, *(f"{name}.rs" for name in SOURCES)}
    checks.need(set(os.listdir(HERE)) == files, f"other files than those of the list: {files ^ set(os.listdir(HERE))}")
    for name, shape in product(SOURCES, SHAPES):
        checks.case = f"{name} in the shape {shape}"
        ran = checks.run("gen", f"{HERE}/{name}.rs", "--shape", shape)
        checks.need(ran.returncode == 0, "it is refused")
        stored = re.sub(r"[ \t\n\r]+", " ", read(f"{HERE}/{name}.{shape}.txt").decode())
        wanted, found = stored.strip().replace(" ↵ ", "\n") + "\n", ran.stdout.decode()
        pairs = zip_longest(re.findall(r"\S+|\n", wanted), re.findall(r"\S+|\n", found))
        checks.check(found == wanted, f"another text than the stored one: {[it for it in pairs if it[0] != it[1]][:3]}")
    checks.end(f"{checks.passed} generated texts are the stored ones, word for word")


if __name__ == "__main__":
    main(sys.argv[1])
