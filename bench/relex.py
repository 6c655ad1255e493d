#!/usr/bin/env python3
"""Measures edits of one byte, at a thousand points all over a text of 64 MiB, or of as many as the
argument says, and prints a table: the items, the chunks, the milliseconds of a lexer on the whole
text and of `Lexed::new`, and the microseconds of an edit, in the mean and at most.

  python3 bench/relex.py [MIB]

An edit puts a letter in place of a byte. The texts are those of two examples, again and again. The
variable RELEX names a program: see bench/programs.py."""
import pathlib
import sys

import programs
from common import ROOT, Room, machine, print_table, said_by, write

TEXTS = {"config/config.rs": "config/data/good.toml", "query/query.rs": "query/data/query.sql"}
HEADS = ["Text", "Items", "Chunks", "Lexer, ms", "`new`, ms", "Edit, µs", "Edit at most, µs"]


def rows(program, path, size):
    for enum, name in TEXTS.items():
        text = pathlib.Path(ROOT, "examples", name).read_bytes()
        write(path, text * (size // len(text) + 1))
        yield name, *said_by([program, f"{ROOT}/examples/{enum}", path, "1000"]).split()


def main(mebibytes=64):
    room = Room()
    first = [f"{ROOT}/examples/{it}" for it in next(iter(TEXTS.items()))]
    program = programs.measuring(room.folder, "relex", "logos_codegen logos_host logos_relex", [*first, "1"])
    print(machine())
    print_table(HEADS, rows(program, f"{room.folder}/text", int(mebibytes) << 20))


if __name__ == "__main__":
    main(*sys.argv[1:])
