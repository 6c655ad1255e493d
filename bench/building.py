#!/usr/bin/env python3
"""Measures `generate` on sources that bench/inputs/enums.py makes, and prints a table: the seconds
of the call alone, the states of the code, or the fault where there is none, the most memory that
the program used, its source included, and how many times as long it took as the row of 4000
keywords, which grows with its keywords.

Of three runs the fastest counts. Rows of long times have a number that they may not pass there:
each one that passes it is named at the end, and the status is 1. When most of the numbers were
chosen, keywords took 1.67 times as long. The groups execute the same instructions as then, so
theirs went up with that, from 1.2 to 2.

A second table has ASCII rules beside what flex and re2c need for the same ones, in processor
seconds of the whole programs. 4000 words may take 1.2 times as long as the faster of the two.

The variable BUILDING names a program: see bench/programs.py. It needs flex and re2c for the second
table."""
import shutil
import sys

import programs
from common import BENCH, Room, machine, print_table, read, said_by, shown, used, write
from inputs import enums

# Rules that flex and re2c get too: a kind, a size, how many times as long as the faster one they
# may take, or any time where that is 0, and a name.
BESIDE = [
    ("keywords", 1000, 0, "1000 keywords"),
    ("keywords", 4000, 1.2, "4000 keywords"),
    ("one_regex", 4000, 1.2, "4000 words in one regex"),
    ("letters_up_to", 200, 0, "`[a-z]{1,200}x`"),
    ("letters_up_to", 400, 0, "`[a-z]{1,400}x`"),
    ("optional_letters", 200, 0, "`(?:a?){200}b`"),
    ("optional_letters", 400, 0, "`(?:a?){400}b`"),
]


class Building:
    """The program that builds, and what took too long."""

    def __init__(self):
        self.room, self.slow = Room(), []
        self.source = f"{self.room.folder}/source"
        write(self.source, enums.source("keywords", 1))
        libraries = "logos_code logos_codegen logos_generator logos_token"
        self.program = programs.measuring(self.room.folder, "building", libraries, [self.source])

    def fastest(self, kind, size):
        """Returns what the fastest of three runs on a source prints."""
        write(self.source, enums.source(kind, size))
        runs = [said_by([self.program, self.source]).split() for _ in range(3)]
        return min(runs, key=lambda it: float(it[0]))

    def rows(self):
        """Yields the rows of the first table. The file `rows` of bench/building has them: a kind, a
        size, the bound of the last column or 0, and a name."""
        linear = float(self.fastest("keywords", 4000)[0])
        for line in read(f"{BENCH}/building/rows").splitlines():
            kind, size, most, name = line.split(" ", 3)
            seconds, states, kilobytes = self.fastest(kind, int(size))
            times = float(seconds) / linear
            if 0 < float(most) < times:
                self.slow.append(f"{name}: more than {most} times 4000 keywords")
            yield name, f"{float(seconds):.3f}", states, f"{float(kilobytes) / 1024:.0f}", f"{times:.2f}"

    def other(self, program, kind, size, *words):
        """Returns the least processor seconds of another program, or None where it is missing or
        refuses what it gets."""
        source = f"{self.room.folder}/words.{program}"
        write(source, enums.other_source(program, kind, size))
        return least([program, *words, "-o", f"{self.room.folder}/words.c", source])

    def rows_beside(self):
        """Yields the rows of the second table."""
        for kind, size, most, name in BESIDE:
            write(self.source, enums.source(kind, size))
            own = least([self.program, self.source])
            others = [self.other("flex", kind, size, "-CF"), self.other("re2c", kind, size)]
            times = own / min(filter(None, others)) if any(others) else None
            if times and 0 < most < times:
                self.slow.append(f"{name}: more than {most} times the faster one")
            yield name, f"{own:.3f}", *map(shown, others), shown(times)


def least(words):
    """Returns the least processor seconds of five runs, or None where a program is missing or
    fails."""
    runs = [used(words) for _ in range(5)] if shutil.which(words[0]) else [(1, 0, 0)]
    return None if any(status for status, _, _ in runs) else min(seconds for _, seconds, _ in runs)


def main():
    building = Building()
    print(machine())
    print_table(["Source", "Seconds", "States", "Memory in MiB", "Times 4000 keywords"], building.rows())
    print_table(["Rules", "Seconds", "flex -CF", "re2c", "By the faster one"], building.rows_beside())
    sys.exit("\n".join(building.slow) or None)


if __name__ == "__main__":
    main()
