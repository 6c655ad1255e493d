#!/usr/bin/env python3
"""Measures `Token::lexer` on lexers and texts on which nothing was fitted. The variable SET selects
them. `held`, which is taken without that variable, has the lexers of bench/inputs/held_rules.py,
those of bench/held/rules whose texts bench/inputs/held_more.py makes, and the eight of
examples/lexers; constants were fitted on some of them since. `fresh` has those whose texts
bench/inputs/fresh.py makes, on which nothing was measured while constants were chosen. Change no
constant of the runtime by what this script prints; `bench/lexer.py` has the texts for that.

  python3 bench/held.py [RUNS [KIND..]]

Each program reads the leaf and the end of each item, and prints their sums: where two find
different items the script fails. In Rust these are lexers of the shape `tables`, by a loop over
`spanned`, by `for_each` and, as `parser`, by calls of `next` from three places; by the same loop
where they look ahead everywhere, as `ahead`, and nowhere, as `plain`; and of the shapes `tailcall`
and `state_machine`. In C these are the scanners by flex (-CF, -Cf), re2c (-b, -g) and ragel (-G2),
as their users build the fast ones. Those of examples/lexers have callbacks and Unicode names, and
so none in C.

A text has 4 MiB if its lexer is in bench/held/rules, and else 2 MiB, and no part of it is repeated
as a whole. It is read as a whole, and in fresh pieces that end with lines: single lines, and of at
least 256 bytes, 1, 4 and 16 KiB. Each piece has a lexer of its own. Programs take turns in an order
of chance, and the fastest run counts: of six, if no number is given.

The variable LEXER names the program of bench/lexer, built by `bench/lexer.py`: then the library's
own `Lexer` and its run by chunks are measured on the same whole texts, but for those of the
examples, and which of them the programs choose is shown.

The variable OTHER names the folder `src` of another version of rust/logos to measure beside this
one, whose lexers are then `other`; OTHER_CLI is the `logos_cli` that prints them, if it is another
one. KEEP names a folder in which texts and programs are kept for the
next time, CLI a `logos_cli`, SIZE the bytes of a text, and BEFORE words in front of each program
that is measured, such as `chrt -f 1 taskset -c 3`. JOBS is how many compilers run at once, two
without it.

It needs rustc, cargo and gcc; flex, re2c and ragel where they are found. A shape for which rustc
takes more than 60 processor seconds, or as many as the variable SECONDS says, is left out. What
takes longest is compiling: with KEEP, `python3 bench/held.py 0` does that alone."""
import glob
import os
import random
import shutil
import subprocess
import sys
from concurrent.futures import ThreadPoolExecutor

import scanners
from common import BENCH, ROOT, Room, Runs, print_means, print_table, said_by, shown, write
from inputs import fresh, held, held_more, held_rules, rule_files

SHAPES = ["tailcall", "state_machine"]
FLAGS = {"flex": ("-CF", "-Cf"), "re2c": ("-b", "-g"), "ragel": ("-G2",)}
IN_C = [f"{tool}{flag}" for tool, flags in FLAGS.items() for flag in flags]
# The lexers of the shape `tables`, with what rustc gets for each, and those of the other version.
TABLES = {"lexer": (), **{way: ("--cfg", way) for way in ("folded", "parser", "ahead", "plain")}}
OTHER = {"other": (), "other_parser": ("--cfg", "parser")}
PIECES = {"1": "a line", "256": "256", "1024": "1,024", "4096": "4,096", "16384": "16,384"}
IN_PIECES = ["lexer", "folded", "parser", "other", "other_parser", *SHAPES]
# The library, with what its program is asked for.
LIBRARY = {"own_lexer": "lexer_items", "own_chunks": "chunk_items"}
# The examples, with the type of their tokens.
EXAMPLES = {"access_log": "Part", "css": "Token", "json": "Token", "mustache": "Part<'static>",
            "pythonic": "Token", "rusty": "Token", "sql": "Token", "toml": "Token<'static>"}
# The kinds of each set, with the functions that print the lexer and make the text of one, and the
# MiB of that text.
SETS = {
    "held": {
        **{kind: (held_rules.source, held.text, 2) for kind in held_rules.KINDS},
        **{kind: (rule_files.source, held_more.text, 4) for kind in held_more.KINDS},
        **{f"examples/{name}": (None, held.text, 2) for name in EXAMPLES},
    },
    "fresh": {kind: (rule_files.source, fresh.text, 4) for kind in fresh.KINDS},
}
KINDS = SETS[os.environ.get("SET", "held")]
# For the means of whole texts, and of pieces: a program, and by which others its speed is shown.
RATIOS = {
    "lexer by the faster shape": ("lexer", SHAPES),
    "for_each by it": ("folded", SHAPES),
    "parser by it": ("parser", SHAPES),
    "lexer by the fastest in C": ("lexer", IN_C),
    "lexer by the better of ahead and plain": ("lexer", ["ahead", "plain"]),
    "lexer by the other version": ("lexer", ["other"]),
    "parser by its parser": ("parser", ["other_parser"]),
}
BY_SHAPE, BY_OTHER = list(RATIOS)[:3], list(RATIOS)[-2:]
PEERS = [*SHAPES, *IN_C]
SECONDS = int(os.environ.get("SECONDS", 60))


def logos_cli():
    """Returns the path of `logos_cli`, which is built if none is named."""
    if "CLI" not in os.environ:
        manifest = f"{ROOT}/Cargo.toml"
        words = ["cargo", "build", "-q", "--release", "-p", "logos-cli", "--manifest-path", manifest]
        subprocess.run(words, check=True)
    return os.environ.get("CLI", f"{ROOT}/target/release/logos_cli")


def lay_out(folder, cli, kind, shape):
    """Writes the parts of the program of a kind and a shape. Returns their paths."""
    name, source = kind.removeprefix("examples/"), KINDS[kind][0]
    if source:
        write(f"{folder}/source.rs", source(kind, "rust"))
    else:
        os.makedirs(folder, exist_ok=True)
        shutil.copy(f"{ROOT}/examples/lexers/{name}.rs", f"{folder}/source.rs")
    write(f"{folder}/rules.rs", said_by([cli, f"{folder}/source.rs", "--shape", shape]))
    write(f"{folder}/alias.rs", f"type Rules = rules::{EXAMPLES.get(name, 'Token')};\n")
    return [f"{folder}/rules.rs", f"{folder}/alias.rs"]


def compiled(room, kind, cli, library, other):
    """Compiles all programs of a kind. Returns their paths by their names."""
    name, rules_of, found = kind.replace("/", "_"), KINDS[kind][0], {}
    for shape in ["tables", *SHAPES]:
        parts = lay_out(f"{room.folder}/{name}.{shape}.source", cli, kind, shape)
        for way, words in (TABLES if shape == "tables" else {shape: ()}).items():
            main = f"{BENCH}/held/main.rs"
            found[way] = scanners.in_rust(room, f"{name}.{way}", parts, main, library, SECONDS, words)
    if other:
        parts = lay_out(f"{room.folder}/{name}.other.source", os.environ.get("OTHER_CLI", cli), kind, "tables")
        for way, words in OTHER.items():
            main = f"{BENCH}/held/main.rs"
            found[way] = scanners.in_rust(room, f"{name}.{way}", parts, main, other, SECONDS, words)
    for tool in (it for it in FLAGS if rules_of and shutil.which(it)):
        source = f"{room.folder}/{name}.{tool}.source"
        write(source, rules_of(kind, tool))
        for flag in FLAGS[tool]:
            way = f"{tool}{flag}"
            found[way] = scanners.in_c(room, f"{name}.{way}", [tool, flag], source, f"{BENCH}/held")
    return {way: path for way, path in found.items() if path}


def write_enum(path, kind):
    """Writes the enum of a new kind alone."""
    lines = KINDS[kind][0](kind, "rust").splitlines(keepends=True)
    first = next(n for n, line in enumerate(lines) if line.startswith("#[derive("))
    write(path, "".join(lines[first:lines.index("}\n", first) + 1]))


def library_commands(room, kind, path):
    """Returns the commands that measure the library on a text, and which of them it chooses."""
    lexer = os.environ.get("LEXER")
    if not lexer or not KINDS[kind][0]:
        return {}, None
    enum = f"{room.folder}/{kind}.enum.rs"
    write_enum(enum, kind)
    words = [os.path.realpath(lexer), enum, path]
    choice = said_by([*words, "choice"]).strip()
    return {way: [*words, request] for way, request in LIBRARY.items()}, f"own_{choice}"


def measure_library(runs, name, commands):
    """Runs the library once on a whole text."""
    for way in random.sample(list(commands), len(commands)):
        # (its leaves have other numbers, since skips have one too)
        runs.measure((name, "0"), way, commands[way], 3)


def print_library(runs, choices):
    """Prints the library's own loops on whole texts, and how fast the chosen one is."""
    rows, kinds = [], {"own by the fastest other": {}, "own by the better of its loops": {}}
    for name, choice in choices.items():
        key, size = (name, "0"), runs.sizes[name]
        ratios = runs.ratio(key, choice, PEERS), runs.ratio(key, choice, list(LIBRARY))
        for kind, ratio in zip(kinds.values(), ratios):
            kind[name] = ratio
        speeds = [runs.speed(key, way, size) for way in LIBRARY]
        rows.append([name, choice.removeprefix("own_"), *speeds, *map(shown, ratios)])
    print("\nThe library, MB/s on whole texts")
    print_table(["Text", "own", *LIBRARY, *kinds], rows)
    print_means(kinds)


def measure(runs, name, ways, path):
    """Runs the programs of a text once, one right after another, since a machine has slow
    times."""
    jobs = [((name, "0"), way) for way in ways]
    jobs += [((name, piece), way) for piece in PIECES for way in IN_PIECES if way in ways]
    random.shuffle(jobs)
    for key, way in sorted(jobs, key=lambda job: job[0]):
        runs.measure(key, way, [ways[way], path, key[1]])


def print_ratios(runs, names, piece, kinds):
    """Prints the means of some ratios."""
    print_means({kind: {name: runs.ratio((name, piece), *RATIOS[kind]) for name in names} for kind in kinds})


def print_pieces(runs, names, kinds):
    """Prints some ratios of fresh pieces."""
    print(f"\nFresh pieces: {', '.join(kinds)}")
    several = lambda key: ", ".join(shown(runs.ratio(key, *RATIOS[kind])) for kind in kinds)
    rows = [[name, *(several((name, piece)) for piece in PIECES)] for name in names]
    print_table(["Text", *PIECES.values()], rows)
    for piece in PIECES:
        print(f"\nPieces of {piece}")
        print_ratios(runs, names, piece, kinds)


def write_text(room, kind):
    """Writes the text of a kind, if it is not there. Returns its path."""
    _, text, mib = KINDS[kind]
    size = int(os.environ.get("SIZE", mib << 20))
    path = room.path(f"{kind.replace('/', '_')}.{size}.text", *sorted(glob.glob(f"{BENCH}/inputs/*.py")))
    if not os.path.exists(path):
        write(path, text(kind, size))
    return path


def print_whole(runs, paths, all_ways):
    """Prints MB/s of all programs on whole texts, and the means of their ratios."""
    shown_ways = [it for it in [*TABLES, *OTHER, *SHAPES, *IN_C] if any(it in ways for ways in all_ways.values())]
    first = ["lexer by the faster shape", "lexer by the fastest in C", "lexer by the better of ahead and plain"]
    rows = []
    for name in paths:
        key, size = (name, "0"), runs.sizes[name]
        speeds = [runs.speed(key, way, size) for way in shown_ways]
        rows.append([name, *speeds, *(shown(runs.ratio(key, *RATIOS[kind])) for kind in first)])
    print("MB/s on whole texts")
    print_table(["Text", *shown_ways, *first], rows)
    print_ratios(runs, paths, "0", RATIOS)


def main(count=6, *kinds):
    room, runs = Room(), Runs()
    names = {kind: kind.replace("/", "_") for kind in kinds or KINDS}
    cli = logos_cli()
    runtime = scanners.runtime(f"{room.folder}/liblogos.rlib")
    source = os.environ.get("OTHER")
    other = source and scanners.runtime(f"{room.folder}/libother.rlib", source)
    with ThreadPoolExecutor(int(os.environ.get("JOBS", 2))) as pool:
        jobs = [pool.submit(compiled, room, kind, cli, runtime, other) for kind in names]
        all_ways = {name: job.result() for name, job in zip(names.values(), jobs)}
    paths = {name: write_text(room, kind) for kind, name in names.items()}
    library = {name: library_commands(room, kind, paths[name]) for kind, name in names.items()}
    runs.sizes = {name: os.path.getsize(path) for name, path in paths.items()}
    for _ in range(int(count)):
        for name, ways in all_ways.items():
            measure(runs, name, ways, paths[name])
            measure_library(runs, name, library[name][0])
    if not runs.best:
        return
    print_whole(runs, paths, all_ways)
    print_pieces(runs, paths, BY_SHAPE)
    if other:
        print_pieces(runs, paths, BY_OTHER)
    choices = {name: choice for name, (_, choice) in library.items() if choice}
    if choices:
        print_library(runs, choices)
    runs.end()


if __name__ == "__main__":
    main(*sys.argv[1:])
