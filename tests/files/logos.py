#!/usr/bin/env python3
"""Runs `logos` where files and outputs fail: files that are missing, folders, or not UTF-8; words
that are not UTF-8; an input that comes piece by piece; a standard output that is full, closed, read
slowly or read no more, or that takes the beginning alone; and charts whose folders are missing or
whose files cannot be made, or not whole: then what was there stays. Each time the status and every
byte that is written must be as stated here.

  logos.py COMPILER PROGRAM

COMPILER is that of the program, `rattle` or `cargo`."""
import glob
import os
import subprocess
import sys
import time
from pathlib import Path

sys.path.insert(0, str(Path(__file__).resolve().parents[1]))
from checks import Checks, read, write  # noqa: E402

USAGE = "usage: logos gen|lex|strip|mermaid|export FILE .."
UNWRITTEN = "cannot write standard output"
ITEMS = "token 0 0..1\nerror 1..2"
FILES = {
    "source": 'enum T { #[token("a")] A }',
    "alike": 'enum T { #[token("a")] A, #[token("a")] B }',
    "torn": b"enum \xff",
    "input": "ab",
    "bytes": b"a\xff",
    "many": "a" * 20000,
    "long": '#[logos(export_dir = "long.mmd")] enum My { #[regex("a{2000}")] A }',
}
# Where charts go, by the names of their sources.
CHARTS = {"to_deep": "deep/er/", "to_b": "b.mmd", "to_folder": "folder.mmd", "below": "source/x",
          "to_full": "full.mmd", "to_dot": "a.dot", "to_text": "a.txt"}
# The status, the complaint and the arguments of runs that print nothing.
UNREADABLE = [
    *((3, "cannot read none", it) for it in ("lex none input", "lex source none", "gen none", "lex none gone", "strip none", "export none")),
    *((3, "cannot read folder", it) for it in ("mermaid folder", "lex source folder", "export folder")),
    *((3, "cannot read torn", it) for it in ("gen torn", "lex torn input", "lex torn none", "mermaid torn", "strip torn", "export torn")),
    (1, "NotUtf8 1", "lex source bytes"),
    (2, USAGE, "lex source"),
]
NOT_TEXT = [[b"gen\xff", "source"], ["gen", b"\xff"], ["lex", "source", b"in\xffput"], ["export", b"\xff"], ["gen", "source", "--shape", b"\xff"]]
EXPORTS = [
    (3, "cannot write folder.mmd", "to_folder"),
    (3, "cannot write source/x/my.mmd", "below"),
    (3, "cannot write full.mmd", "to_full"),
    (1, "DOT export is left out", "to_dot"),
    (1, "Export path must end in '.dot' or '.mmd', or it must be a directory.", "to_text"),
    (1, "no export path", "source"),
]
PRINTING = ["lex source input", "gen source", "mermaid source", "strip source"]


def lay_out():
    for name, text in FILES.items():
        write(name, text)
    for name, path in CHARTS.items():
        write(name, f'#[logos(export_dir = "{path}")] enum My {{ #[token("a")] A }}')
    os.mkdir("folder")
    os.mkdir("folder.mmd")
    os.symlink("/dev/full", "full.mmd")


def read_files(checks):
    checks.gives(0, "", "lex", "source", "input", out=ITEMS)
    for status, err, words in UNREADABLE:
        checks.gives(status, err, *words.split(), out="")
    checks.gives(3, "cannot read ", "gen", "", out="")
    checks.gives(2, USAGE, out="")
    for words in NOT_TEXT:
        checks.gives(2, USAGE, *words, out="")


def export(checks):
    """A chart goes to its file, in place of what stood there, and makes the folders that are
    missing."""
    def charts(path, source):
        checks.need(read(path) == checks.run("mermaid", source).stdout, f"{path} is another chart")

    for _ in range(2):
        checks.gives(0, "", "export", "to_deep", out="")
        charts("deep/er/my.mmd", "to_deep")
    write("b.mmd", read("deep/er/my.mmd") * 3)
    checks.gives(0, "", "export", "to_b", out="")
    charts("b.mmd", "to_b")
    for status, err, source in EXPORTS:
        checks.gives(status, err, "export", source, out="")
    checks.need(not any(map(os.path.exists, ("a.dot", "a.txt", "my.mmd"))), "a chart that was refused was written")
    # It needs no standard output.
    os.remove("b.mmd")
    checks.gives(0, "", "export", "to_b", closed=True)
    charts("b.mmd", "to_b")


def cannot_print(checks, compiler):
    """The output cannot be written: the faults of source and input come first."""
    # In place of a closed standard output Rust opens /dev/null, which takes all that is written.
    closed = (3, UNWRITTEN) if compiler == "rattle" else (0, "")
    with open("/dev/full", "wb") as full:
        for words in PRINTING:
            checks.gives(3, UNWRITTEN, *words.split(), stdout=full)
            checks.gives(*closed, *words.split(), closed=True)
        checks.gives(1, "NotUtf8 1", "lex", "source", "bytes", stdout=full)
    # Nobody reads the output any more.
    for words in ("lex source input", "gen source", "mermaid long", "strip source"):
        checks.gives(3, UNWRITTEN, *words.split(), stdout=checks.unread())


def print_slowly(checks):
    """The input comes piece by piece, and a long output is read slowly: both are whole."""
    at, pipe = os.pipe()
    with subprocess.Popen([checks.program, "lex", "source", "/dev/stdin"], stdin=at, stdout=subprocess.PIPE) as running:
        os.close(at)
        os.write(pipe, b"a")
        time.sleep(0.2)
        os.write(pipe, b"b")
        os.close(pipe)
        found = running.stdout.read().decode()
    checks.check(found == f"{ITEMS}\n" and running.returncode == 0, f"an input in pieces has the items {found}")
    chart = checks.run("mermaid", "long").stdout
    checks.need(len(chart) > 100000, "the chart is short")
    lines = "".join(f"token 0 {it}..{it + 1}\n" for it in range(20000)).encode()
    for words, whole in ((["mermaid", "long"], chart), (["lex", "source", "many"], lines)):
        with subprocess.Popen([checks.program, *words], stdout=subprocess.PIPE, stderr=subprocess.PIPE) as running:
            time.sleep(0.2)
            found = running.stdout.read(), running.stderr.read()
        checks.check(found == (whole, b"") and running.returncode == 0, f"{words} prints something else")
    return chart, lines


def begin_alone(checks, chart, lines):
    """The output takes the beginning alone, which stays there."""
    code = checks.run("gen", "source").stdout
    for words, whole, size in (("gen source", code, 1), ("mermaid long", chart, 1), ("lex source many", lines, 100)):
        with open("half", "wb") as half:
            checks.gives(3, UNWRITTEN, *words.split(), stdout=half, size=size)
        checks.need(read("half") == whole[:size << 10], f"{words} leaves something else than the beginning")
    checks.gives(3, "cannot write long.mmd", "export", "long", out="", size=1)
    checks.need(not glob.glob("long.mmd*"), "a part of a chart was left")
    write("long.mmd", "old")
    checks.gives(3, "cannot write long.mmd", "export", "long", out="", size=1)
    checks.need(read("long.mmd") == b"old", "the chart that was there is gone")
    checks.need(glob.glob("long.mmd*") == ["long.mmd"], "a part of a chart was left")


def main(compiler, program):
    checks = Checks("files_logos", program)
    lay_out()
    read_files(checks)
    export(checks)
    cannot_print(checks, compiler)
    begin_alone(checks, *print_slowly(checks))
    for status, words in ((1, "gen alike"), (3, "gen none"), (2, "gen"), (1, "export source"), (3, "export below")):
        checks.unheard(status, *words.split())
    checks.end(f"{checks.passed} runs end as they have to")


if __name__ == "__main__":
    main(*sys.argv[1:])
