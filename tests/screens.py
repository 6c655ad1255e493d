#!/usr/bin/env python3
"""Runs the programs with a terminal as their output, and compares the colors and the lines that
they write there.

  screens.py LOGOS LOGOS_CLI LOGOS_SHOW

Colors depend on `--color`, on the variable NO_COLOR, and on whether the output is a terminal; the
width of lines on the variable COLUMNS. The lines of a small input were worked out by hand. Without
its escape sequences, a colored output about the lexers of examples/lexers is the plain one, byte
for byte; and a line that is cut is the longest front of the plain line that fits, with a mark.
After a second a line about the progress of a stream is shown, and cleared at the end."""
import glob
import os
import pty
import re
import select
import subprocess
import sys
import termios
import time
import unicodedata

from checks import Checks, read, write

ROOT = os.path.dirname(os.path.dirname(os.path.realpath(__file__)))
SOURCE = """#[derive(Logos)]
#[logos(skip " +")]
enum Token {
    #[regex("[a-zöß]+")]
    Word,
    #[token("日本")]
    Japan,
    #[regex("[0-9]+")]
    #[token("-")]
    NumberOrSign,
}
"""
FAULTY = "#[derive(Logos)]\nenum Token {\n    #[regex]\n    A,\n}\n"
INPUT = "größe 日本\n12 \x1b"
LOCATION, VARIANT, TEXT, ERROR, END = "\x1b[1;34m", "\x1b[1m", "\x1b[32m", "\x1b[1;31m", "\x1b[0m"
PLAIN = ['1:1  Word  "größe"', '1:7  Japan  "日本"', '1:9  <error>  "\\n"', '2:1  NumberOrSign  "12"', '2:4  <error>  "\\x1B"']
COLORED = [
    f'{LOCATION}1:1{END}{VARIANT}  Word  {END}{TEXT}"größe"{END}',
    f'{LOCATION}1:7{END}{VARIANT}  Japan  {END}{TEXT}"日本"{END}',
    f'{LOCATION}1:9{END}{ERROR}  <error>  {END}{ERROR}"\\n"{END}',
    f'{LOCATION}2:1{END}{VARIANT}  NumberOrSign  {END}{TEXT}"12"{END}',
    f'{LOCATION}2:4{END}{ERROR}  <error>  {END}{ERROR}"\\x1B"{END}',
]
# The lines at some widths. `日` and `本` take two columns each.
CUT = {
    "18": ['1:1  Word  "größe"', '1:7  Japan  "日本"', '1:9  <error>  "\\n"', '2:1  NumberOrSign…', '2:4  <error>  "\\x…'],
    "17": ['1:1  Word  "größ…', '1:7  Japan  "日…', '1:9  <error>  "\\…', '2:1  NumberOrSig…', '2:4  <error>  "\\…'],
    "16": ['1:1  Word  "grö…', '1:7  Japan  "日…', '1:9  <error>  "…', '2:1  NumberOrSi…', '2:4  <error>  "…'],
    "3": ["1:…", "1:…", "1:…", "2:…", "2:…"],
    "1": ["…"] * 5,
}
UNCUT = ["0", "", "x", "-5", "8 0", "80\n", "٨", "99999999999999999999", "100000000000000000000000", "1000"]
SEQUENCE = re.compile(r"\x1b\[[0-9;]*m")


def columns(text):
    return sum(0 if unicodedata.combining(c) else 2 if unicodedata.east_asian_width(c) in "WF" else 1 for c in text)


def terminal():
    """Returns both ends of a terminal that changes no byte of an output."""
    reader, writer = pty.openpty()
    settings = termios.tcgetattr(writer)
    settings[1] &= ~termios.OPOST
    termios.tcsetattr(writer, termios.TCSANOW, settings)
    return reader, writer


def read_all(reader, process):
    """Returns all that a process writes into a terminal."""
    text = b""
    while True:
        ended = process.poll() is not None
        while select.select([reader], [], [], 0 if ended else 0.05)[0]:
            text += os.read(reader, 65536)
        if ended:
            return text.decode()


class Screens(Checks):
    """Runs of programs with terminals."""

    def shown(self, *words, program=None, on="out", given=None, **variables):
        """Returns what a program writes to standard output or to standard error. It is a terminal
        unless `on` names the other one."""
        kept = {name: value for name, value in os.environ.items() if name not in ("NO_COLOR", "COLUMNS")}
        reader, writer = terminal()
        how = {"env": {**kept, **variables}, "stdin": open(given, "rb") if given else subprocess.DEVNULL}
        other = subprocess.DEVNULL
        process = subprocess.Popen([program or self.program, *words], stdout=writer if on == "out" else other, stderr=writer if on == "err" else other, **how)
        text = read_all(reader, process)
        os.close(reader)
        os.close(writer)
        return text

    def piped(self, *words, program=None, **variables):
        """Returns what a program writes to a pipe."""
        kept = {name: value for name, value in os.environ.items() if name not in ("NO_COLOR", "COLUMNS")}
        ran = self.run(*words, program=program, env={**kept, **variables})
        return ran.stdout.decode()


def items(text):
    """Returns the lines of items of an output."""
    return text.split("\n\nenum ")[0].split("\n")


def untimed(text):
    return re.sub(r"^milliseconds: \d+$", "", text, flags=re.M)


def check_colors(checks):
    """Checks when the lines of items have colors, and which."""
    words = ("t.rs", "i")
    always = ("t.rs", "i", "--color", "always")
    for case, text, wanted in (
        ("a terminal", checks.shown(*words), COLORED),
        ("a terminal, --color auto", checks.shown(*words, "--color", "auto"), COLORED),
        ("a terminal, --color always", checks.shown(*always), COLORED),
        ("a terminal, --color never", checks.shown(*words, "--color", "never"), PLAIN),
        ("a terminal, NO_COLOR=1", checks.shown(*words, NO_COLOR="1"), PLAIN),
        ("a terminal, NO_COLOR=0", checks.shown(*words, NO_COLOR="0"), PLAIN),
        ("a terminal, a long NO_COLOR", checks.shown(*words, NO_COLOR="x" * 5000), PLAIN),
        ("a terminal, an empty NO_COLOR", checks.shown(*words, NO_COLOR=""), COLORED),
        ("a terminal, NO_COLOR=1 --color always", checks.shown(*always, NO_COLOR="1"), COLORED),
        ("standard input", checks.shown("t.rs", "-", given="i"), COLORED),
        ("standard input, NO_COLOR=1", checks.shown("t.rs", "-", given="i", NO_COLOR="1"), PLAIN),
        ("a pipe", checks.piped(*words), PLAIN),
        ("a pipe, --color always", checks.piped(*always), COLORED),
        ("a pipe, NO_COLOR=1 --color always", checks.piped(*always, NO_COLOR="1"), COLORED),
    ):
        checks.case = case
        checks.check(items(text) == wanted, f"the lines of items are {text!r}")
        checks.check(untimed(text).endswith("\n\nenum Token\n  Word: 1\n  Japan: 1\n  NumberOrSign: 1\nerrors: 2\nbytes: 19\n\n"), f"the counts are {text!r}")


def check_widths(checks):
    """Checks that lines of items are cut."""
    for width, wanted in CUT.items():
        checks.case = f"COLUMNS={width}"
        text = checks.shown("t.rs", "i", "--color", "never", COLUMNS=width)
        checks.check(items(text) == wanted, f"the lines of items are {items(text)}")
        checks.check(items(SEQUENCE.sub("", checks.shown("t.rs", "i", COLUMNS=width))) == wanted, "colored lines are cut otherwise")
        checks.check(items(checks.piped("t.rs", "i", COLUMNS=width)) == PLAIN, "lines in a pipe are cut")
    for width in UNCUT:
        checks.case = f"COLUMNS={width!r}"
        checks.check(items(checks.shown("t.rs", "i", "--color", "never", COLUMNS=width)) == PLAIN, "lines are cut")
    checks.case = "a cut line with colors"
    wanted = f'{LOCATION}1:1{END}{VARIANT}  Word  {END}{TEXT}"grö{END}…'
    checks.check(items(checks.shown("t.rs", "i", COLUMNS="16"))[0] == wanted, "is another")


def check_others(checks, show):
    """Checks the answers that have no colors: tables are cut, and others stay as they are."""
    checks.case = "tables"
    plain = checks.piped("t.rs")
    checks.check(checks.shown("t.rs") == checks.piped("t.rs", COLUMNS="30") == plain, "without a width, or in a pipe, they are not the plain ones")
    for width in (10, 30, 57, 58, 200):
        cut = checks.shown("t.rs", COLUMNS=str(width))
        checks.check(cut == "".join(f"{fitted(line, width)}\n" for line in plain[:-1].split("\n")), f"at {width} columns they are {cut!r}")
    for words in (("t.rs", "--examples"), ("t.rs", "--inputs", "9"), ("t.rs", "i", "--at", "1:1"), ("t.rs", "i", "--json"), ("t.rs", "--json"),
                  ("t.rs", "t.rs", "--compare"), ("t.rs", "i", "--html", "-"), ("--help",)):
        checks.case = " ".join(words)
        checks.check(checks.shown(*words, COLUMNS="9") == checks.piped(*words), "a terminal is written otherwise")
    checks.case = "--expect"
    write("stored", checks.piped("t.rs", "i"))
    for color in ("always", "auto"):
        checks.check(checks.shown("t.rs", "i", "--expect", "stored", "--color", color, COLUMNS="9") == "as expected\n", "a terminal changes what is compared")


def fitted(line, width):
    """Returns a line as it has to be at a width."""
    if columns(line) <= width:
        return line
    while columns(line) > width - 1:
        line = line[:-1]
    return f"{line}…"


def check_messages(checks, cli, show):
    """Checks when messages have colors."""
    for name, program in (("logos_cli", cli), ("logos_show", show)):
        checks.case = f"the messages of {name}"
        for colored, words, variables in ((True, (), {}), (False, (), {"NO_COLOR": "1"}), (True, (), {"NO_COLOR": ""}),
                                          (True, ("--color", "always"), {"NO_COLOR": "1"}), (False, ("--color", "never"), {})):
            text = checks.shown("f.rs", *words, program=program, on="err", **variables)
            checks.check(text.startswith(f"{ERROR}error[RegexForm]{END}" if colored else "error[RegexForm]: "), f"{words} {variables}: {text!r}")


def streamed(checks, items, is_file=True):
    """Returns what `logos_show t.rs -` writes to a terminal as its standard error, if its input
    arrives within two seconds and its output is a file or another terminal."""
    (reader, writer), (other, output) = terminal(), terminal()
    how = {"stdin": subprocess.PIPE, "stdout": subprocess.DEVNULL if is_file else output, "stderr": writer}
    process = subprocess.Popen([checks.program, "t.rs", "-"], **how)
    for _ in range(3):
        process.stdin.write(b"a " * items)
        process.stdin.flush()
        time.sleep(0.6)
    process.stdin.close()
    text = read_all(reader, process)
    for end in (reader, writer, other, output):
        os.close(end)
    return text


def check_progress(checks):
    """Checks the line about progress. The lines of 900 items have 14 bytes and the digits of their
    columns, 1 to 1799: 15,645 bytes."""
    checks.case = "the progress of a stream"
    text = streamed(checks, 300)
    shown = re.fullmatch(r"((?:\r\d+ KiB written)+)\r {32}\r", text)
    counts = [int(it) for it in re.findall(r"\d+", shown[1])] if shown else []
    checks.check(counts and counts == sorted(counts) and counts[-1] == 15, f"it is {text!r}")
    checks.case = "the progress of a stream whose output is a terminal"
    checks.check(streamed(checks, 9, is_file=False) == "", "something is shown")


def check_lexers(checks):
    """Checks that colors add nothing else to lines, and that cut lines are fronts."""
    for path in sorted(glob.glob(f"{ROOT}/examples/lexers/*.rs")):
        checks.case = path
        for given in (path, f"{ROOT}/docs/GUIDE.md"):
            plain = checks.piped(path, given)
            checks.check(untimed(SEQUENCE.sub("", checks.piped(path, given, "--color", "always"))) == untimed(plain), "colors change the text")
            cut = items(checks.shown(path, given, "--color", "never", COLUMNS="24"))
            checks.check(cut == [fitted(line, 24) for line in items(plain)], "another line is cut")


def main(logos, cli, show):
    checks = Screens("screens", show)
    for name, text in (("t.rs", SOURCE), ("f.rs", FAULTY), ("i", INPUT)):
        write(name, text)
    check_colors(checks)
    check_widths(checks)
    check_others(checks, show)
    check_messages(checks, cli, show)
    check_lexers(checks)
    check_progress(checks)
    checks.end("colors and widths are as the terminal requires")


if __name__ == "__main__":
    main(*map(os.path.realpath, sys.argv[1:]))
