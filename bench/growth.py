#!/usr/bin/env python3
"""Measures how the time and the memory of `logos lex` grow with the size of a source.

  python3 bench/growth.py [LOGOS]

bench/inputs/enums.py makes the sources, and the input has two bytes. Each size of a kind is twice
the one before it. Each source is lexed three times, and the fastest run counts. The program is the
one in out/programs, if it is not given. A row has, for each size, processor seconds and MiB of the
whole process, and `refused` for a source with faults. A process has at least the memory of this
script, from which it starts.

The last columns are the exponents by which time and memory grew: time from the second size to the
last, memory from the third, if it exceeds that of this script. 1 is growth with the size, 2 with
its square, and n log n gives up to 1.2 here."""
import math
import sys

from common import ROOT, Room, machine, print_table, used, write
from inputs import enums

# A kind, its first size, and its name.
KINDS = [
    ("keywords", 1000, "n keywords"),
    ("beside_names", 1000, "n keywords, names and numbers"),
    ("one_regex", 1000, "n words in one regex"),
    ("plain", 12500, "n variants, one with a token"),
    ("sql_unicode", 100, "n keywords in any case, names of all scripts"),
    ("beginnings", 50, "n regexes that begin alike"),
    ("class_sets", 10, "n rules of class sets"),
    ("repeated", 4000, "`a{n}`"),
    ("letters_up_to", 1600, "`[a-z]{1,n}x`"),
    ("characters_up_to", 400, "`.{0,n}z`"),
    ("optional_words", 20, "`(?:\\w?){n}!`"),
    ("optional_letters", 500, "`(?:a?){n}b`"),
    ("equal_tokens", 500, "n equal tokens"),
]
DOUBLED = 4


class Growth:
    """The program, and the MiB that it uses for a source of one token."""

    def __init__(self, program):
        self.room, self.program = Room(), program
        self.source, self.input = f"{self.room.folder}/source", f"{self.room.folder}/input"
        write(self.input, "aa")
        self.least = self.measured("keywords", 1)[2]

    def measured(self, kind, size):
        """Returns the status, the least seconds and the most MiB of three runs."""
        write(self.source, enums.source(kind, size))
        runs = [used([self.program, "lex", self.source, self.input]) for _ in range(3)]
        statuses, seconds, memory = zip(*runs)
        if not set(statuses) <= {0, 1}:
            sys.exit(f"growth: {kind} of size {size} ends with status {statuses[0]}")
        return statuses[0], min(seconds), max(memory)

    def exponents(self, seconds, memory):
        """Returns the exponents by which time and memory grew, as cells show them."""
        time = exponent(seconds[1], seconds[-1], DOUBLED - 2)
        return time, exponent(memory[-2], memory[-1], 1) if memory[-2] > 1.1 * self.least else "-"

    def rows(self):
        """Yields the row of each kind."""
        for kind, first, name in KINDS:
            found = [self.measured(kind, first << step) for step in range(DOUBLED)]
            cells = [f"{'refused ' if status else ''}{seconds:.3f} {memory:.0f}" for status, seconds, memory in found]
            _, seconds, memory = zip(*found)
            yield name, first, *cells, *self.exponents(seconds, memory)


def exponent(first, last, doubled):
    """Returns the exponent of the growth from a number to that of a size which was doubled so
    often."""
    return f"{math.log(last / first, 2) / doubled:.2f}"


def main(program=f"{ROOT}/out/programs/logos"):
    growth = Growth(program)
    print(machine())
    heads = ["Source", "First n", *(f"{1 << step} times it" for step in range(DOUBLED)), "Time", "Memory"]
    print_table(heads, growth.rows())


if __name__ == "__main__":
    main(*sys.argv[1:])
