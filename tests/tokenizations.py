#!/usr/bin/env python3
"""Counts how often the programs and the macro read a file and each of its enums.

  tokenizations.py            compares the counts with the limits, and with the table in docs/MAP.md
  tokenizations.py --table    prints that table

The crates and the packages are copied. In the copy `tokenize`, `read_enum` and `generate` also
write a line to standard error, `tokenize` with the length of its source. Cargo builds the programs
of the copy, and a package that derives a lexer. A file is read once by `logos_cli`, and each of its
enums at most three times: a lexer for its code, and for what stays of it and its warnings, and any
other enum for its warnings. All else that is read is text that was printed, which is compared with
what it has to spell. The last line is `N passed, M failed`."""
import os
import re
import shutil
import subprocess
import sys
import tempfile

ROOT = os.path.dirname(os.path.dirname(os.path.abspath(__file__)))
SHAPES = ["tables", "tailcall", "state_machine"]

# The enums of the file, each with the most times that it is read.
LEXER = """#[derive(Logos)]
#[logos(skip("[ ]+", |lex| { count(lex) }), error(Fault, |lex| Fault::new(lex)))]
enum Token {
    #[token("a", |_| { Skip })] A,
    #[regex("b+", |lex| lex.slice().len())] B(usize),
    #[regex("c+", parse)] C,
}"""
OTHER = """#[derive(Logos)] enum Other { #[token("x")] X, #[regex("y+")] Y }"""
PLAIN = "enum Plain { One, Two(u8) }"
REFUSED = """#[derive(Logos)] enum Refused { #[regex("a+", |lex| lex.span())] A(Span), #[regex("[a]+")] B }"""
ENUMS = [(LEXER, 3), (OTHER, 3), (PLAIN, 1)]
FILE = "//! A file.\n#![allow(dead_code)]\nuse logos::Logos;\n\n" + "\n\n".join(text for text, _ in ENUMS)
ONE = f"use logos::Logos;\n{LEXER}\n"

# The functions whose calls are counted: the file of each, and the line before which it counts.
COUNTED = {
    "tokenize": ("logos_token/src/token/reader.rt", "    if src.len() > MAX_SOURCE {", "src.len()"),
    "read_enum": ("logos_enum/src/item.rt", "    let Some((attributes, rest)) = read_front(tokens) else {", "0"),
    "generate": ("logos_codegen/src/generation.rt", "    match analyze(alloc, src) {", "0"),
}

# The runs of the table: the name of each, the program with its arguments, and the files. `derive`
# is a package that derives a lexer.
RUNS = [
    ("`logos lex`", ["logos", "lex", "enum.rs", "input"], {"enum.rs": LEXER, "input": "a bb c"}),
    ("`logos gen`", ["logos", "gen", "enum.rs"], {"enum.rs": LEXER}),
    ("`logos strip`", ["logos", "strip", "enum.rs"], {"enum.rs": LEXER}),
    ("`#[derive(Logos)]`", ["derive"], {}),
    ("`logos_cli FILE`, one lexer", ["logos_cli", "one.rs"], {"one.rs": ONE}),
    ("`logos_cli FILE`, two lexers and a plain enum", ["logos_cli", "t.rs"], {"t.rs": FILE}),
    ("`logos_show FILE`, the same", ["logos_show", "t.rs"], {"t.rs": FILE}),
]
# The package that derives the lexer, and its program.
DERIVING = """use logos::{Lexer, Logos, Skip};

#[derive(Clone, Debug, Default, PartialEq)]
struct Fault;

impl Fault {
    fn new(_: &Lexer<Token>) -> Fault {
        Fault
    }
}

fn count(_: &Lexer<Token>) -> Skip {
    Skip
}

fn parse(_: &Lexer<Token>) -> bool {
    true
}

fn main() {
    println!("{}", Token::lexer("a bb c").count());
}

""" + LEXER
PACKAGE = """[package]
name = "derives"
version = "0.0.0"
edition = "2021"

[dependencies]
logos = { path = "../rust/logos" }

[workspace]
"""


def counting(folder):
    """Copies the crates and the packages, lets them count, and builds the programs. Returns the
    folder of the programs."""
    for name in ["crates", "rust"]:
        shutil.copytree(f"{ROOT}/{name}", f"{folder}/{name}", symlinks=True, ignore=shutil.ignore_patterns("out", "target", "proofs"))
    for name in ["Cargo.toml", "Cargo.lock", "crates.txt"]:
        shutil.copy(f"{ROOT}/{name}", folder)
    for name, (path, line, length) in COUNTED.items():
        change(f"{folder}/crates/{path}", line, f'    std::counted("{name}", {length});\n{line}')
    change(f"{folder}/rust/rattle-std/src/lib.rs", "pub mod alloc;\n", '/// Counts.\npub fn counted(name: &str, bytes: usize) {\n    ::std::eprintln!("counted {name} {bytes}");\n}\n\npub mod alloc;\n')
    subprocess.run(["cargo", "build", "--quiet", "--offline", "-p", "logos-cli"], cwd=folder, check=True)
    return f"{folder}/target/debug"


def change(path, old, new):
    """Replaces a text that is once in a file."""
    with open(path, encoding="utf-8") as file:
        text = file.read()
    if text.count(old) != 1:
        sys.exit(f"tokenizations: {path} has {text.count(old)} times: {old}")
    with open(path, "w", encoding="utf-8") as file:
        file.write(text.replace(old, new))


def calls(output):
    """Returns the counted calls that the output of a run states: the name of each, and a length."""
    return [(name, int(length)) for name, length in re.findall(r"^counted (\w+) (\d+)$", output, re.M)]


def lengths(program, path, shape):
    """Returns the lengths of all sources that were read into tokens."""
    done = subprocess.run([program, "--shape", shape, path], capture_output=True, text=True)
    return [length for name, length in calls(done.stderr) if name == "tokenize"]


def derived(folder):
    """Returns the output of a build of a package that derives a lexer."""
    package = f"{folder}/derives"
    os.makedirs(f"{package}/src")
    with open(f"{package}/Cargo.toml", "w", encoding="utf-8") as file:
        file.write(PACKAGE)
    with open(f"{package}/src/main.rs", "w", encoding="utf-8") as file:
        file.write(DERIVING)
    words = ["cargo", "build", "--offline", "--manifest-path", f"{package}/Cargo.toml"]
    done = subprocess.run(words, capture_output=True, text=True)
    if done.returncode != 0:
        sys.exit(f"tokenizations: {done.stderr}")
    return done.stderr


def row_of(name, words, files, programs, folder):
    """Returns the row of the table for a run."""
    for path, text in files.items():
        with open(f"{folder}/{path}", "w", encoding="utf-8") as file:
            file.write(text)
    if words == ["derive"]:
        output = derived(folder)
    else:
        output = subprocess.run([f"{programs}/{words[0]}", *words[1:]], cwd=folder, capture_output=True, text=True).stderr
    counted = calls(output)
    times = [sum(one == it for it, _ in counted) for one in COUNTED]
    read = sum(length for it, length in counted if it == "tokenize")
    return f"| {name} | {' | '.join(str(it) for it in times)} | {read:,} |"


def table(programs, folder):
    """Returns the rows of the table of runs."""
    return [row_of(*run, programs, folder) for run in RUNS]


def check(name, text, read, most):
    """Returns whether a text was read at most so often, and once at least."""
    times = read.count(len(text.encode()))
    if 0 < times <= most:
        return True
    print(f"tokenizations: {name} is read {times} times, wanted at most {most}")
    return False


def rows(program, folder):
    """Returns whether each row is right."""
    path = f"{folder}/t.rs"
    for shape in SHAPES:
        with open(path, "w", encoding="utf-8") as file:
            file.write(FILE)
        read = lengths(program, path, shape)
        yield check(f"the file as {shape}", FILE, read, 1)
        for text, most in ENUMS:
            yield check(f"{text.split('{')[0].split()[-1]} as {shape}", text, read, most)
        with open(path, "w", encoding="utf-8") as file:
            file.write(f"use logos::Logos;\n{REFUSED}\n")
        yield check(f"a refused enum as {shape}", REFUSED, lengths(program, path, shape), 3)


def page_rows(made):
    """Returns whether each row of the table in docs/MAP.md is the counted one."""
    with open(f"{ROOT}/docs/MAP.md", encoding="utf-8") as file:
        lines = file.read().split("\n")
    for row in made:
        if row not in lines:
            print(f"tokenizations: docs/MAP.md lacks the row {row}")
        yield row in lines


def main():
    with tempfile.TemporaryDirectory() as folder:
        programs = counting(folder)
        made = table(programs, folder)
        if sys.argv[1:] == ["--table"]:
            print("\n".join(made))
            return 0
        results = [*rows(f"{programs}/logos_cli", folder), *page_rows(made)]
    print(f"{sum(results)} passed, {len(results) - sum(results)} failed")
    return not all(results)


if __name__ == "__main__":
    sys.exit(main())
