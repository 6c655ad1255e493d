#!/usr/bin/env python3
"""Measures the texts of lexers in their three shapes: the bytes of the text, the processor seconds
that rustc takes for a program with it, the bytes of that program's machine code and tables, and the
MB that it lexes in a second, the fastest of some runs.

  python3 bench/shapes.py [RUNS]

The last rows are of programs with ten lexers of the shape `tables`: those with Unicode identifiers
in turns, and that of JSON; and of one without a lexer.

The lexers are like those of Rust, SQL and Python, with Unicode identifiers, and that of JSON. Each
reads a text of its kind, made by bench/inputs/made.py; all shapes have to find as many tokens and
errors in it. SIZE says how many bytes a text has, 16 MiB without it. CLI names a `logos_cli`: see
bench/programs.py. It needs rustc."""
import os
import sys

import programs
import scanners
from common import BENCH, Room, Runs, machine, print_table, said_by, used, write
from inputs import made

SIZE = int(os.environ.get("SIZE", 16 << 20))
SHAPES = ["state_machine", "tailcall", "tables"]
RULES = {"rust_like": "text", "sql_unicode": "text", "python_like": "text", "json": "lexer/rules"}


def compiled(room, cli, library, name, shape):
    """Compiles the program of a lexer and a shape. Returns its path, the bytes of its text and the
    seconds of rustc."""
    folder = f"{room.folder}/{name}.{shape}.text"
    scanners.lay_out(folder, cli, f"{BENCH}/{RULES[name]}/{name}.rs", shape)
    with open(f"{folder}/main.rs", "w", encoding="utf-8") as out, open(f"{BENCH}/lexer/rust/main.rs", encoding="utf-8") as main:
        out.write(main.read())
    words = ["rustc", "--edition", "2021", "-C", "opt-level=3", "--extern", f"logos={library}"]
    status, seconds, _ = used([*words, "-o", f"{folder}/lexer", f"{folder}/main.rs"])
    if status:
        sys.exit(f"{name}: rustc refuses the shape {shape}")
    return f"{folder}/lexer", os.path.getsize(f"{folder}/lexer.rs"), seconds


def of_several(room, cli, library, names):
    """Compiles a program with a lexer of the shape `tables` for each name, in modules. Returns the
    bytes of its texts, the seconds of rustc and its path."""
    folder, text, calls = f"{room.folder}/several.{len(names)}.{'.'.join(sorted(set(names)))}", 0, ""
    with open(f"{BENCH}/lexer/rust/main.rs", encoding="utf-8") as main:
        whole = main.read()
    parts = "#![allow(warnings)]\n"
    for number, name in enumerate(names):
        scanners.lay_out(f"{folder}/lexer{number}", cli, f"{BENCH}/{RULES[name]}/{name}.rs", "tables")
        text += os.path.getsize(f"{folder}/lexer{number}/lexer.rs")
        write(f"{folder}/lexer{number}/main.rs", whole.replace("#![allow(warnings)]", "").replace("fn main", "pub fn main", 1))
        parts += f'#[path = "lexer{number}/main.rs"]\nmod lexer{number};\n'
        calls += f"lexer{number}::main();\n"
    write(f"{folder}/main.rs", f"{parts}fn main() {{\n{calls}}}\n")
    words = ["rustc", "--edition", "2021", "-C", "opt-level=3", "--extern", f"logos={library}"]
    status, seconds, _ = used([*words, "-o", f"{folder}/lexers", f"{folder}/main.rs"])
    if status:
        sys.exit("rustc refuses several lexers")
    return text, seconds, f"{folder}/lexers"


def size_of(path):
    """Returns the bytes of the machine code and tables of a program."""
    return said_by(["size", path]).split("\n")[1].split()[0]


def main(count=5):
    room, runs = Room(), Runs()
    cli = programs.logos(room.folder, "CLI")
    library = scanners.runtime(f"{room.folder}/liblogos.rlib")
    for name in RULES:
        write(f"{room.folder}/{name}.input", made.text(name, SIZE))
    there = {(name, shape): compiled(room, cli, library, name, shape) for name in RULES for shape in SHAPES}
    for _ in range(int(count)):
        for (name, shape), (path, _, _) in there.items():
            runs.measure(name, shape, [path, f"{room.folder}/{name}.input"])
    print(f"{machine()}, {said_by(['rustc', '--version'])}", end="")
    rows = []
    for (name, shape), (path, text, seconds) in there.items():
        rows.append([name, shape, text, f"{seconds:.2f}", size_of(path), runs.speed(name, shape, SIZE)])
    turns = [name for name in RULES if RULES[name] == "text"]
    for what, names in {"ten with Unicode": (4 * turns)[:10], "ten of json": ["json"] * 10, "none": []}.items():
        text, seconds, path = of_several(room, cli, library, names)
        rows.append([what, "tables", text, f"{seconds:.2f}", size_of(path), "-"])
    print_table(["Lexer", "Shape", "Bytes of the text", "Seconds of rustc", "Bytes of the program", "MB/s"], rows)
    runs.end()


if __name__ == "__main__":
    main(*sys.argv[1:])
