#!/usr/bin/env python3
"""Measures lexers on texts of 32 MiB: `Lexer` and, as `chunks`, a run by chunks, in a proved build,
and in the program that the variable INSTALLED names, beside scanners of the same rules: those that
flex (-CF and -Cf) and re2c (-b and -g) make, and what rustc makes of the Rust text of these rules,
over `rust/logos`, in the three shapes.

  python3 bench/lexer.py [RUNS [TEXT ..]]

A run lexes a text three times and until that took a quarter of a second, and a short one very
often. Of the runs, taken in turns, the fastest of each counts: ten, if no number is given.

Constants of the runtime and of the library are fitted on these texts. bench/held.py has lexers and
texts on which nothing is fitted.

bench/inputs/made.py makes sixteen of the texts, bench/inputs/files.py those of files on this
machine. A text of which it has too few files is left out, and a shape for which rustc takes more
than 100 processor seconds.

The first table has MB/s of all; the speed of `ours`, which is `chunks` or `lexer` as the programs
choose, by that of the fastest other, and of the tables by the faster other shape; then come the
means of these, the installed program beside the proved one, and nanoseconds for inputs of 64 bytes
and 1 KiB. The last table is of `logos lex` beside programs in Rust that print the same lines
through a `BufWriter`, on texts of 64 MiB.

The variable SCANNERS names the scanners that are measured, instead of all, so that more runs fit
into the same time: SCANNERS='lexer chunks installed installed_chunks' has the installed program
beside the proved one. The last table is left out then. SIZE says how many bytes the texts have,
instead of 32 MiB: where others use the processor too, short texts are lexed while these rest. KEEP
names a folder in which texts and compiled scanners are kept for the next time, BEFORE words that
stand before each program that is measured, such as `chrt -f 1`, and JOBS how many compilers run at
once, two without it. LEXER, LOGOS and CLI name programs: see bench/programs.py.

It needs flex, re2c, gcc and rustc, as in `apt-get install flex re2c gcc`."""
import glob
import hashlib
import itertools
import os
import random
import subprocess
import sys
from concurrent.futures import ThreadPoolExecutor

import programs
import scanners
from common import BENCH, Room, Runs, by, machine, print_means, print_table, said_by, shown, used, write
from inputs import files, made

# The texts of languages, data and logs, over which the means are; then held-out kinds, and what is
# there to be hard.
USUAL = """json_files rust python css_files c asm iplog xml program log json prose sql css
template""".split()
TEXTS = [*USUAL, *"markdown toml httplog graphql mustache access words blanks operators".split()]
# By which rules those are read that have another name, and which rules read bytes.
RULES = {"words": "program", "blanks": "program", "operators": "program", "json_files": "json", "css_files": "css"}
OF_BYTES = ("program", "access", "iplog", "httplog")
OWN, INSTALLED = ["lexer", "chunks"], ["installed", "installed_chunks"]
IN_C = {"flex-CF": "l", "flex-Cf": "l", "re2c-b": "re", "re2c-g": "re"}
SHAPES, TABLES = ["tailcall", "state_machine"], "tables"
OTHERS = [*IN_C, *SHAPES]
SIZE = int(os.environ.get("SIZE", 32 << 20))
SECONDS = 100
# The texts of which lines are printed; those of which lines are short inputs, how long these are,
# and how many bytes a run reads of them.
PRINTED, LINES = ("program", "json", "log", "prose"), ("program", "json", "log", "css", "sql")
LENGTHS, BYTES = (64, 1024), 6_000_000


def text_of(room, text, size):
    """Returns the path of a text, or None where this machine has too few files."""
    sources = glob.glob(f"{BENCH}/inputs/*.py") + glob.glob(f"{BENCH}/lexer/re2c/*.re")
    path = room.path(f"{text}.{size}", *sorted(sources))
    if not os.path.exists(path):
        found = (made if text in made.PARTS else files).text(text, size)
        if found is None:
            print(f"{text}: left out, since this machine has too few of its files", file=sys.stderr)
            return None
        write(path, found)
    return path


def compiled(room, rules, cli, library, prints):
    """Compiles all scanners for some rules. Returns their paths by their names."""
    found = {}
    for way, ending in IN_C.items():
        tool, flag = way[:4], way[4:]
        words = [tool, flag, *["--utf8"] * (tool == "re2c" and rules not in OF_BYTES)]
        source = f"{BENCH}/lexer/{tool}/{rules}.{ending}"
        found[way] = scanners.in_c(room, f"{rules}.{way}", words, source, f"{BENCH}/lexer")
    for shape in [*SHAPES, TABLES]:
        folder = f"{room.folder}/{rules}.{shape}.text"
        scanners.lay_out(folder, cli, f"{BENCH}/lexer/rules/{rules}.rs", shape)
        parts = [f"{folder}/lexer.rs", f"{folder}/rules.rs"]
        mains = {shape: "main", **({f"{shape}.lines": "lines"} if prints and shape in SHAPES else {})}
        for way, main in mains.items():
            main = f"{BENCH}/lexer/rust/{main}.rs"
            found[way] = scanners.in_rust(room, f"{rules}.{way}", parts, main, library, SECONDS)
    return {way: path for way, path in found.items() if path}


class Scanners:
    """The scanners of all rules, and how each is called."""

    def __init__(self, room, texts, cli):
        library = scanners.runtime(f"{room.folder}/liblogos.rlib")
        rules = sorted({RULES.get(text, text) for text in texts})
        with ThreadPoolExecutor(int(os.environ.get("JOBS", 2))) as pool:
            jobs = [pool.submit(compiled, room, it, cli, library, it in PRINTED) for it in rules]
            self.others = {it: job.result() for it, job in zip(rules, jobs)}
        first = f"{BENCH}/lexer/rules/json.rs"
        libraries = "logos_code logos_codegen logos_generator logos_machine logos_pattern logos_scan"
        self.lexer = programs.measuring(room.folder, "lexer", libraries, [first, first])
        self.installed = os.environ.get("INSTALLED")

    def command(self, text, way, *words):
        """Returns the words that run a scanner by the rules of a text, or None where there is
        none, or others are asked for."""
        rules = RULES.get(text, text)
        if way not in os.environ.get("SCANNERS", way).split():
            return None
        if way in OWN + INSTALLED:
            program = self.installed if way in INSTALLED else self.lexer
            chunks = ["chunks"] * way.endswith("chunks")
            return program and [program, f"{BENCH}/lexer/rules/{rules}.rs", *words, *chunks]
        return way in self.others[rules] and [self.others[rules][way], *words]

    def choice(self, text, path):
        """Returns which of `lexer` and `chunks` the programs choose for a text."""
        rules = f"{BENCH}/lexer/rules/{RULES.get(text, text)}.rs"
        return said_by([self.lexer, rules, path, "choice"]).strip()

    def run(self, runs, text, key, ways, *words):
        """Runs some scanners on a text, in an order of chance, so that none has the same one before
        it each time."""
        for way in random.sample(ways, len(ways)):
            if command := self.command(text, way, *words):
                runs.measure(key, way, command)


def main_table(runs, choices):
    """Prints MB/s of all scanners, and the ratios."""
    ways = [it for it in [*OWN, *OTHERS, TABLES] if any(way == it for _, way in runs.best)]
    kinds = {"ours by the fastest other": {}, "tables by the faster shape": {}}
    rows = []
    for text, choice in choices.items():
        ratios = runs.ratio(text, choice, OTHERS), runs.ratio(text, TABLES, SHAPES)
        for kind, ratio in zip(kinds.values(), ratios):
            kind[text] = ratio
        tokens = next(iter(runs.found[text].values()))[0]
        rows.append([text, tokens, choice, *(runs.speed(text, way, SIZE) for way in ways), *map(shown, ratios)])
    print_table(["Text", "Tokens", "ours", *ways, *kinds], rows)
    print_means(kinds, USUAL)


def installed_table(runs, choices):
    """Prints the installed program beside the proved one."""
    pairs = dict(zip(OWN, INSTALLED))
    rows = []
    for text, choice in choices.items():
        speeds = [runs.speed(text, way, SIZE) for pair in pairs.items() for way in pair]
        rows.append([text, *speeds, shown(runs.ratio(text, pairs[choice], [choice]))])
    print_table(["Text", *(way for pair in pairs.items() for way in pair), "installed ours by ours"], rows)


def short_input(path, length):
    """Returns whole lines of a text: the first that have exactly so many bytes."""
    with open(path, "rb") as it:
        text = it.read(1 << 22)
    ends = {0, *itertools.accumulate(map(len, text.splitlines(keepends=True)))}
    start = min(end for end in ends if end + length in ends)
    return text[start:start + length]


def short_table(room, all_scanners, paths, count):
    """Prints the nanoseconds for short inputs."""
    runs, ways, rows = Runs(), ["lexer", "installed", *OTHERS, TABLES], []
    for text, length in itertools.product((it for it in paths if it in LINES), LENGTHS):
        path, times = f"{room.folder}/{text}.{length}", BYTES // length
        write(path, short_input(paths[text], length))
        for _ in range(count):
            all_scanners.run(runs, text, (text, length), ways, path, str(times))
        key = text, length
        cells = [shown(by(runs.seconds(key, way), times / 1e9), ".0f") for way in ways]
        rows.append([text, length, *cells, shown(runs.ratio(key, "lexer", OTHERS))])
    print_table(["Text", "Bytes", *ways, "lexer by the fastest other"], rows)
    return runs


def printed(words):
    """Returns how many lines a program prints, and a digest of them."""
    found, lines = hashlib.sha256(), 0
    with subprocess.Popen(words, stdout=subprocess.PIPE) as running:
        while block := running.stdout.read(1 << 20):
            found.update(block)
            lines += block.count(b"\n")
    return lines, found.hexdigest()


def lines_row(text, commands, count):
    """Returns the row of a text: its lines, and of each program the least processor seconds and the
    most memory. The programs run in turns."""
    found = [printed(words) for words in commands]
    if len(set(found)) != 1:
        sys.exit(f"{text}: different lines")
    turns = [[used(words)[1:] for words in commands] for _ in range(count)]
    seconds = [min(it[0] for it in of) for of in zip(*turns)]
    memory = [max(it[1] for it in of) for of in zip(*turns)]
    cells = [f"{time:.2f} | {most:.0f}" for time, most in zip(seconds, memory)]
    return [text, found[0][0], *cells, f"{seconds[0] / min(seconds[1:]):.2f}"]


def lines_table(room, all_scanners, texts, count, logos):
    """Prints `logos lex` beside the programs that print the same lines."""
    rows = []
    for text in (it for it in PRINTED if it in texts):
        others = [all_scanners.others[text].get(f"{shape}.lines") for shape in SHAPES]
        if all(others):
            path = text_of(room, text, 2 * SIZE)
            own = [logos, "lex", f"{BENCH}/lexer/rules/{text}.rs"]
            rows.append(lines_row(text, [[*words, path] for words in (own, *([it] for it in others))], count))
    heads = [head for name in ("logos lex", *SHAPES) for head in (name, "MiB")]
    print_table(["Text", "Lines", *heads, "logos lex by the fastest other"], rows)


def main(count=10, *texts):
    room = Room()
    paths = {text: text_of(room, text, SIZE) for text in texts or TEXTS}
    paths = {text: path for text, path in paths.items() if path}
    all_scanners = Scanners(room, paths, programs.logos(room.folder, "CLI"))
    choices = {text: all_scanners.choice(text, path) for text, path in paths.items()}
    runs = Runs()
    for _ in range(int(count)):
        for text, path in paths.items():
            all_scanners.run(runs, text, text, [*OWN, *INSTALLED, *OTHERS, TABLES], path)
    print(f"{machine()}, {said_by(['rustc', '--version'])}", end="")
    main_table(runs, choices)
    installed_table(runs, choices)
    short = short_table(room, all_scanners, paths, int(count))
    if not os.environ.get("SCANNERS"):
        lines_table(room, all_scanners, paths, int(count), programs.logos(room.folder, "LOGOS"))
    runs.found.update(short.found)
    runs.end()


if __name__ == "__main__":
    main(*sys.argv[1:])
