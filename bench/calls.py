#!/usr/bin/env python3
"""Measures calls of the library, and prints a table. The file `rows` of a folder here has the rows
and the columns.

  python3 bench/calls.py attributes|calls|compile|graph|reading|tokenize

- attributes: `analyze` on enums with many attributes
- calls: public calls that the others do not measure, each on a text and on one of half its size
- compile: `Pattern::compile`
- graph: `Graph::new`, from the leaves to the least graph
- reading: `read_enum` on the tokens of large enums
- tokenize: `tokenize` on sources of 16 MiB

The seconds are those of the call alone, the memory the most that the program used, its source
included. A variable such as TOKENIZE names a program: see bench/programs.py.

The file `rows` has three lines and then the rows, with a blank line before each: a name, and below
it, behind four spaces, what the row measures.

- `libraries:` names the crates that the program uses, and `*` all that programs may use.
- `kind:` is `args`, where a row has the arguments of the program; `source`, where it has a kind and
  a size, of which `inputs/sources.py` makes a file; or `halves`, where a call stands in front of
  these and half the size is measured, too. The first two run three times, and the fastest run
  counts.
- `columns:` has the heading of the names, and then for each column its heading and which number
  that the program prints it shows: the second one as `2`, divided as `3/1024`, as the divisor in
  `16.7/1`, and after a space with how many decimals.

In arguments `⟨⟩` stands for nothing, `⟨TEXT×N⟩` for N times a text, `⟨file PATH⟩` for a file of
`bench`, and `⟨characters A B C⟩` for `\\x{..}` of each C-th number from A up to B."""
import re
import sys

import programs
from common import BENCH, Room, machine, print_table, read, said_by, write
from inputs.sources import source as made

NAMES = ("attributes", "calls", "compile", "graph", "reading", "tokenize")


def written(match):
    """Returns what a mark stands for."""
    inner = match[1]
    if repeated := re.fullmatch(r"(.*)×(\d+)", inner):
        return repeated[1] * int(repeated[2])
    if inner.startswith("file "):
        return read(f"{BENCH}/{inner[5:]}").rstrip("\n")
    if inner.startswith("characters "):
        return "".join(f"\\x{{{it:x}}}" for it in range(*map(int, inner.split()[1:])))
    return ""


def libraries_of(names):
    """Returns the libraries that a program uses."""
    if names != "*":
        return names
    above = ("_commands", "_program", "_calls")
    return " ".join(["indexmap", *(it for it in programs.crates.libraries() if not it.endswith(above))])


class Rows:
    """The rows of a folder."""

    def __init__(self, name):
        self.folder = f"{BENCH}/{name}"
        head, *rows = read(f"{self.folder}/rows").rstrip("\n").split("\n\n")
        stated = dict(line.split(": ", 1) for line in head.split("\n"))
        self.kind, self.libraries = stated["kind"], libraries_of(stated["libraries"])
        self.columns = stated["columns"].split("; ")
        self.rows = [row.split("\n") for row in rows]

    def runs(self, file):
        """Yields the name, the arguments and the number of runs of each row. Writes the sources."""
        for name, *lines in self.rows:
            given = [re.sub("⟨(.*?)⟩", written, it[4:]) for it in lines]
            if self.kind == "args":
                yield name, given, 3
                continue
            *call, source, size = given
            halves = self.kind == "halves"
            for part in [int(size) // 2, int(size)] if halves else [int(size)]:
                write(file, made(self.folder, source, part))
                yield f"{name}, {part}" if halves else name, [*call, file], 1 if halves else 3

    def measured(self, program, file):
        """Yields the cells of each row."""
        for name, words, times in self.runs(file):
            found = [said_by([program, *words]).split() for _ in range(times)]
            numbers = min(found, key=lambda it: float(it[0]))
            yield name, *(cell(it.split("=")[1], numbers) for it in self.columns[1:])


def cell(column, numbers):
    """Returns the text of a cell: which of the numbers a column shows, and how."""
    which, _, decimals = column.partition(" .")
    over, _, under = which.partition("/")
    if not decimals:
        return numbers[int(over) - 1]
    if "." in over:
        return f"{float(over) / float(numbers[int(under) - 1]):.{decimals}f}"
    return f"{float(numbers[int(over) - 1]) / float(under or 1):.{decimals}f}"


def main(name):
    room, rows = Room(), Rows(name)
    file = f"{room.folder}/text"
    first = next(rows.runs(file))[1]
    program = programs.measuring(room.folder, name, rows.libraries, first)
    print(machine())
    print_table([it.split("=")[0] for it in rows.columns], rows.measured(program, file))


if __name__ == "__main__":
    if sys.argv[1:] not in ([it] for it in NAMES):
        sys.exit(__doc__)
    main(sys.argv[1])
