#!/usr/bin/env python3
"""Measures `logos_show FILE INPUT` beside `logos lex` on an input of 64 MiB.

  python3 bench/show.py [LOGOS_SHOW [LOGOS]]

The input is examples/lexers/json.input, repeated, and the lexer is the enum of
examples/lexers/json.rs. Each program runs three times, in turns, and its fastest run counts. The
script fails if `logos_show` needs more than the input and 16 MiB of memory, or more than twice the
processor time of `logos lex`. The programs are those in out/programs, if they are not given."""
import pathlib
import re
import sys

from common import ROOT, Room, machine, print_table, read, used, write

SIZE = 64 << 20


def main(show=f"{ROOT}/out/programs/logos_show", logos=f"{ROOT}/out/programs/logos"):
    room, lexer = Room(), f"{ROOT}/examples/lexers/json.rs"
    folder = room.folder
    unit = pathlib.Path(f"{ROOT}/examples/lexers/json.input").read_bytes()
    write(f"{folder}/input", (unit * (SIZE // len(unit))).ljust(SIZE))
    write(f"{folder}/enum.rs", re.search(r"^#\[derive\(Logos.*?^\}\n", read(lexer), re.M | re.S)[0])
    commands = {"logos lex": [logos, "lex", f"{folder}/enum.rs"], "logos_show": [show, lexer]}
    runs = {name: [] for name in commands}
    for _ in range(3):
        for name, words in commands.items():
            status, *numbers = used([*words, f"{folder}/input"])
            if status:
                sys.exit(f"show: {words[0]} ends with status {status}")
            runs[name].append(numbers)
    fastest = {name: min(seconds for seconds, _ in found) for name, found in runs.items()}
    most = {name: max(memory for _, memory in found) for name, found in runs.items()}
    print(machine())
    rows = [[f"`{name}`", f"{fastest[name]:.2f}", f"{most[name]:.1f}"] for name in runs]
    print_table(["Program", "Processor seconds", "Memory in MiB"], rows)
    if most["logos_show"] > 64 + 16 or fastest["logos_show"] > 2 * fastest["logos lex"]:
        sys.exit("show: logos_show needs too much")


if __name__ == "__main__":
    main(*sys.argv[1:])
