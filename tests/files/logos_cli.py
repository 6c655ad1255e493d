#!/usr/bin/env python3
"""Runs `logos_cli` where files and outputs fail: words and files that are not UTF-8, outputs that
are full, closed or read no more, and results that cannot be written, or not whole. A result is
written whole or not at all: what stood in its place stays, and no other file is left. Links,
permissions and devices stay what they are.

  logos_cli.py COMPILER PROGRAM

COMPILER is that of the program, `rattle` or `cargo`."""
import os
import pty
import re
import shutil
import stat
import subprocess
import sys
import threading
import time
from pathlib import Path

sys.path.insert(0, str(Path(__file__).resolve().parents[1]))
from checks import Checks, read, write  # noqa: E402

USAGE = """usage: logos_cli INPUT [-o FILE] [-c] [--shape tables|tailcall|state_machine]
                 [--color always|never|auto]
       logos_cli INPUT.. -o FOLDER/ [-c] [--shape SHAPE] [--color WHEN]"""
NOT_TEXT = f"error: a word is not UTF-8\n{USAGE}"
UNWRITTEN = "error: cannot write standard output"
SOURCE = 'use logos::Logos;\n#[derive(Logos)]\nenum T { #[token("a")] A }\n'
LONG, LONG_RESULT = "a" * 300, "b" * 250
BYTES = 16777216
# A time that no file of the test has by itself.
EARLIER = 978307200
VERSION = "logos_cli 0.1.0 (for logos 0.16)\n"
# The status, the message and the arguments of runs that write nothing: first those that read, then
# those that write.
READING = [
    (2, NOT_TEXT, b"\xff"),
    (2, NOT_TEXT, "source.rs", "--output", b"\xff"),
    (3, "error: cannot read torn.rs: it is not UTF-8 at byte 5", "torn.rs"),
    (3, "error: cannot read none.rs: there is no such file", "none.rs", "--output", "out.rs"),
    (3, "error: cannot read folder: it is a folder", "folder"),
    (3, "error: cannot read source.rs/a: a part of the path is not a folder", "source.rs/a"),
    (3, "error: cannot read : there is no such file", ""),
    (3, "error: cannot read round.rs: its links lead round", "round.rs"),
    (3, f"error: cannot read {LONG}: the name is too long", LONG),
]
WRITING = [
    (3, f"error: cannot write {LONG_RESULT}: the name is too long", LONG_RESULT),
    (3, "error: cannot write folder: it is a folder", "folder"),
    (3, "error: cannot write source.rs/out.rs: a part of the path is not a folder", "source.rs/out.rs"),
    (3, "error: cannot write /dev/full: no space is left", "/dev/full"),
    (1, "error: /dev/full is not what source.rs gives", "/dev/full", "--check"),
]


class Files(Checks):
    """The checks, and what `logos_cli` makes of `source.rs`."""

    def __init__(self, program):
        super().__init__("files_logos_cli", program)
        write("source.rs", SOURCE)
        write("faulty.rs", "#[derive(Logos)]\nenum T { #[token] A }\n")
        write("torn.rs", b"enum \xff")
        os.mkdir("folder")
        os.symlink("round.rs", "round.rs")
        ran = self.run("source.rs")
        self.ends(ran, 0, "")
        self.whole = ran.stdout
        self.need(len(self.whole) > 1024, "the result is short")

    def result(self, name):
        """Returns the result of the source by another name, which its first line has."""
        return self.whole.replace(b" from source.rs,", f" from {name},".encode(), 1)

    def writes(self, path, *more):
        """Checks a run that writes a result, and says nothing."""
        self.gives(0, "", "source.rs", "--output", path, *more)

    def has_mode(self, path, mode):
        self.need(stat.S_IMODE(os.stat(path).st_mode) == mode, f"the permissions of {path} have changed")

    def is_untouched(self, path):
        self.need(os.stat(path).st_mtime == EARLIER, "a file with the same content was written")

    def is_link(self, *paths):
        self.need(all(map(os.path.islink, paths)), f"a link of {paths} was replaced")


def words_and_files(files):
    for status, err, *words in READING:
        files.gives(status, err, *words)
    if os.getuid() != 0:
        write("shut.rs", "fn f() {}")
        os.chmod("shut.rs", 0)
        files.gives(3, "error: cannot read shut.rs: permission denied", "shut.rs")
    piped = subprocess.run(["bash", "-c", f"cat source.rs | '{files.program}' /dev/stdin > out 2> err"], check=False)
    files.check(piped.returncode == 0 and not read("err"), "a pipe is not read")
    files.same("out", files.result("stdin"))
    for words in ({"input": SOURCE.encode()}, {"stdin": open("source.rs", "rb")}):
        ran = files.run("-", **words)
        files.ends(ran, 0, "")
        files.check(ran.stdout == files.result("stdin"), "another result of a standard input")


def too_long(files):
    """No more is read of a file than shows that it is too long: so a device has an end, and the
    last character may be cut off there."""
    message = "error[LimitSource]: limit LimitSource passed\n --> {}:1:1\n  = help: a source has at most 16,777,216 bytes: split the enum\n\nerror: aborting due to 1 previous error"
    files.gives(1, message.format("/dev/zero"), "/dev/zero", memory=400000)
    # A comment of blanks, a character of four bytes, and another character.
    for blanks, more in [(BYTES - 6, ""), *((BYTES + it, "x") for it in range(-5, 3))]:
        write("wide.rs", f"//{' ' * blanks}\N{CRAB}{more}")
        if more:
            files.gives(1, message.format("wide.rs"), "wide.rs")
        else:
            files.gives(0, "warning: no enum in wide.rs derives `Logos`", "wide.rs")
    os.remove("wide.rs")


def own_output(files):
    """A file is not its own output, by whatever path or link."""
    write("own/source.rs", SOURCE)
    os.symlink("source.rs", "own/link.rs")
    os.link("own/source.rs", "own/hard.rs")
    for path in ("own/source.rs", "./own/../own/source.rs", "own/link.rs", "own/hard.rs"):
        files.gives(2, f"error: {path} is the input and the output", "own/source.rs", "-o", path)
        files.gives(2, "error: own/source.rs is the input and the output", path, "-o", "own/source.rs")
        files.same("own/source.rs", SOURCE.encode())
    with open("own/source.rs", "rb") as source:
        files.gives(2, "error: own/source.rs is the input and the output", "-", "-o", "own/source.rs", stdin=source)
    files.only("own", "source.rs", "link.rs", "hard.rs")


def results(files):
    """A new file, one that is there, and one with the same content, which is not touched."""
    path = "new/deep/out.rs"
    files.writes(path)
    files.same(path, files.whole)
    files.only("new/deep", "out.rs")
    os.utime(path, (EARLIER, EARLIER))
    files.writes(path)
    files.is_untouched(path)
    files.writes(path, "--check")
    write(path, "old")
    os.chmod(path, 0o640)
    first = files.whole.decode().split("\n")[:3]
    added = "".join(f"\n{number} + {line}" for number, line in enumerate(first, 1))
    files.gives(1, f"error: {path} is not what source.rs gives\n1 - old{added}", "source.rs", "--output", path, "--check")
    files.writes(path)
    files.same(path, files.whole)
    files.has_mode(path, 0o640)
    files.only("new/deep", "out.rs")


def unwritable(files):
    """A file that may not be written is replaced all the same, and keeps its mode and its owner.
    Another name of it keeps the old content."""
    write("kept/out.rs", "old")
    os.chmod("kept/out.rs", 0o444)
    os.link("kept/out.rs", "kept/other.rs")
    files.writes("kept/out.rs")
    files.same("kept/out.rs", files.whole)
    files.same("kept/other.rs", b"old")
    files.has_mode("kept/out.rs", 0o444)
    if os.getuid() == 0:
        write("kept/owned.rs", "old")
        os.chown("kept/owned.rs", 12345, 54321)
        os.chmod("kept/owned.rs", 0o4755)
        files.writes("kept/owned.rs")
        files.same("kept/owned.rs", files.whole)
        files.has_mode("kept/owned.rs", 0o4755)
        owner = os.stat("kept/owned.rs")
        files.need((owner.st_uid, owner.st_gid) == (12345, 54321), "the owner has changed")


def links(files):
    """A link stays a link, and what it leads to is written: a file that is there, or one that is
    not there yet, also over several links and folders."""
    write("links/real.rs", "old")
    os.symlink("real.rs", "links/link.rs")
    files.writes("links/link.rs")
    files.is_link("links/link.rs")
    files.same("links/real.rs", files.whole)
    files.only("links", "link.rs", "real.rs")
    os.mkdir("links/deep")
    for target, link in (("to.rs", "dangling.rs"), ("deep/b.rs", "a.rs"), ("../new/c.rs", "deep/b.rs"), (os.path.realpath("links/last.rs"), "whole.rs")):
        os.symlink(target, f"links/{link}")
    for path, written in (("dangling.rs", "to.rs"), ("deep/../a.rs", "new/c.rs"), ("whole.rs", "last.rs")):
        files.writes(f"links/{path}")
        files.same(f"links/{written}", files.whole)
    files.is_link("links/dangling.rs", "links/a.rs", "links/deep/b.rs")
    files.gives(3, "error: cannot write round.rs: its links lead round", "source.rs", "--output", "round.rs")
    files.is_link("round.rs")


def left_beside(files):
    """What runs that were killed left beside is removed, but not what a running one writes, nor
    other files."""
    ended = subprocess.Popen(["true"])
    ended.wait()
    running = f"out.rs.{os.getpid()}.new"
    for name in (f"out.rs.{ended.pid}.new", running, "out.rs.new", "out.rs.a1.new"):
        write(f"beside/{name}", "left")
    files.writes("beside/out.rs")
    files.same("beside/out.rs", files.whole)
    files.only("beside", "out.rs", running, "out.rs.new", "out.rs.a1.new")


def not_whole(files):
    """What cannot be written, or not whole: what was there stays, and nothing else is left."""
    for status, err, *words in WRITING:
        files.gives(status, err, "source.rs", "--output", *words)
    files.need(stat.S_ISCHR(os.stat("/dev/full").st_mode), "a device was replaced")
    os.mkdir("full")
    for old in ([], ["out.rs"]):
        for name in old:
            write(f"full/{name}", "old")
        files.gives(3, "error: cannot write full/out.rs: the file is too large", "source.rs", "--output", "full/out.rs", size=1)
        files.only("full", *old)
    files.same("full/out.rs", b"old")
    os.mkfifo("pipe")
    found = []
    reader = threading.Thread(target=lambda: found.append(read("pipe")))
    reader.start()
    files.writes("pipe")
    reader.join()
    files.check(found == [files.whole], "a pipe gets another result")
    files.need(stat.S_ISFIFO(os.stat("pipe").st_mode), "a pipe was replaced")


def several(files):
    """Several files go into a folder, each whole or not at all."""
    one, two, small = (f"several/in/{name}.rs" for name in ("one", "two", "small"))
    for path, text in ((one, SOURCE), (two, SOURCE), (small, "fn f() {}\n")):
        write(path, text)
    to = ["--output", "several/out/"]
    files.gives(0, "", one, two, *to)
    files.same("several/out/one.rs", files.result("one.rs"))
    files.same("several/out/two.rs", files.result("two.rs"))
    files.only("several/out", "one.rs", "two.rs")
    os.utime("several/out/one.rs", (EARLIER, EARLIER))
    write("several/out/two.rs", "old")
    os.chmod("several/out/two.rs", 0o640)
    files.gives(0, "", one, two, *to)
    files.same("several/out/two.rs", files.result("two.rs"))
    files.is_untouched("several/out/one.rs")
    files.has_mode("several/out/two.rs", 0o640)
    files.gives(0, "", one, "-", "-o", "several/mixed/", input=SOURCE.encode())
    files.same("several/mixed/stdin", files.result("stdin"))
    files.only("several/mixed", "one.rs", "stdin")
    write("several/full/two.rs", "old")
    large = "error: cannot write several/full/{}.rs: the file is too large"
    warning = "warning: no enum in several/in/small.rs derives `Logos`"
    messages = f"{large.format('one')}\n{warning}\n{large.format('two')}"
    files.gives(3, messages, one, small, two, "-o", "several/full/", size=1)
    files.same("several/full/two.rs", b"old")
    files.same("several/full/small.rs", b"fn f() {}\n")
    files.only("several/full", "small.rs", "two.rs")
    # No result takes the place of a file that is read, whatever link leads there, and then none is
    # written.
    os.mkdir("several/led")
    os.symlink("../in/two.rs", "several/led/one.rs")
    led = "error: several/led/{}.rs is the input and the output"
    files.gives(2, led.format("one"), small, one, two, "-o", "several/led/")
    files.only("several/led", "one.rs")
    files.same(two, SOURCE.encode())
    os.link(two, "several/led/small.rs")
    os.remove("several/led/one.rs")
    files.gives(2, led.format("small"), small, two, "-o", "several/led/")
    files.same(two, SOURCE.encode())


def faults(files):
    """Faults write nothing, and 400 KB of them on one line take little time, memory and text."""
    write("kept.rs", "old")
    ran = files.run("faulty.rs", "--output", "kept.rs")
    files.need(ran.returncode == 1 and not ran.stdout and ran.stderr.startswith(b"error[TokenForm]"), f"faults end with {ran}")
    files.same("kept.rs", b"old")
    write("enums.rs", '#[derive(Logos)] enum E { #[regex("[")] A } ' * 9000)
    write("variants.rs", "#[derive(Logos)] enum E { " + '#[regex(".*")] V, ' * 22000 + "}\n")
    for name in ("enums.rs", "variants.rs"):
        for form in ("human", "json"):
            ran = files.run(name, "--message-format", form, seconds=5, memory=200000)
            is_short = len(ran.stderr) < 1000000 and b" more are not shown" in ran.stderr
            files.check(ran.returncode == 1 and not ran.stdout and is_short, f"{name} as {form}: status {ran.returncode}")
    # In JSON 50 lines are faults of each of two codes, and one says how many more there are.
    counts = [sum(f'"level":"{level}"'.encode() in line for line in ran.stderr.split(b"\n")) for level in ("error", "failure-note")]
    files.need(counts == [100, 2], f"variants.rs as json: {counts} lines")


def outputs(files, compiler):
    """Standard output is full, closed, read slowly, or read no more; and nobody reads the messages:
    then the status stays."""
    with open("/dev/full", "wb") as full:
        files.gives(3, UNWRITTEN, "source.rs", stdout=full)
    # In place of a closed standard output Rust opens /dev/null, which takes all that is written.
    files.gives(*((3, UNWRITTEN) if compiler == "rattle" else (0, "")), "source.rs", closed=True)
    with subprocess.Popen([files.program, "source.rs"], stdout=subprocess.PIPE) as running:
        time.sleep(0.2)
        files.check(running.stdout.read() == files.whole, "a slow reader gets another result")
    files.gives(3, "", "source.rs", stdout=files.unread())
    for status, words in ((1, "faulty.rs"), (3, "none.rs"), (2, "source.rs more.rs"), (2, "--check source.rs"), (2, "--shpe")):
        files.unheard(status, *words.split())


def copied(files, name, more=""):
    """Copies the program, with a text at its end. Returns the path of the copy."""
    write(name, read(files.program) + more.encode())
    os.chmod(name, 0o755)
    return os.path.realpath(name)


def of_cargo(files):
    """Cargo builds three programs, whatever their files are called, and puts the commit into
    them."""
    said = files.run("--version", program=copied(files, "other_name")).stdout.decode()
    files.check(re.fullmatch(re.escape(VERSION) + r"(commit: [0-9a-f]{40}\n)?", said), "a version of another form")


def commits(files):
    """The version names the commit by the last line of the program, if that is `commit: ` and forty
    hexadecimal digits in lower case."""
    digits = "0123456789abcdef0123456789abcdef01234567"
    line, other, begun = f"commit: {digits}\n", f"commit: {digits.replace('0', 'f')}\n", f"commit: {digits[:-1]}"
    wrong = [f"commit: {digits}", *(f"{begun}{it}\n" for it in ("", "78", "g", "F", ":", "/", "`"))]
    wrong += [f"Commit: {digits}\n", f"commit:  {digits}\n", f"commit: {digits} \n"]
    for added, shown in [("", ""), (line, line), (line + other, other), *((it, "") for it in wrong)]:
        ran = files.run("--version", program=copied(files, "named/logos_cli", added))
        files.ends(ran, 0, "")
        files.check(ran.stdout.decode() == VERSION + shown, f"the version after {added}")


def names(files):
    """The name of the program's file says which program it is, however the name goes on and
    whatever its folders are called. By any other name it is `logos`, which has no version."""
    show = VERSION.replace("cli", "show")
    usage = "usage: logos gen|lex|strip|mermaid|export FILE .."
    others = ["logos", "lexer", "cli", "logos_sho", "my_logos_cli", "logos_cli.d/logos"]
    for name, status, out, err in [
        ("logos_cli-0.1.0", 0, VERSION, ""), ("logos_show.d/logos_cli.old", 0, VERSION, ""), ("logos_cli.d/logos_show2", 0, show, ""),
        *((name, 2, "", usage) for name in others),
    ]:
        ran = files.run("--version", program=copied(files, f"names/{name}"))
        files.ends(ran, status, err)
        files.check(ran.stdout.decode() == out, f"the version of {name}")
    os.symlink("logos", "names/logos_show")
    path = {**os.environ, "PATH": f"{os.path.realpath('names')}:{os.environ['PATH']}"}
    said = [files.run("--version", program=shutil.which(name, path=path["PATH"])) for name in ("logos_cli-0.1.0", "logos_show")]
    files.check(b"".join(it.stdout for it in said).decode() == VERSION + show, "programs on the path have other versions")


def on_terminal(files, *words):
    """Returns what the program shows on a terminal."""
    at, terminal = pty.openpty()
    files.run(*words, stdin=terminal, stdout=terminal, stderr=terminal)
    os.close(terminal)
    shown = os.read(at, 1 << 16)
    os.close(at)
    return shown


def main(compiler, program):
    files = Files(program)
    for part in (words_and_files, too_long, own_output, results, unwritable, links, left_beside, not_whole, several, faults):
        part(files)
    outputs(files, compiler)
    for part in (commits, names) if compiler == "rattle" else (of_cargo,):
        part(files)
    # Messages have colors on a terminal.
    files.check(b"\x1b[1;31m" in on_terminal(files, "faulty.rs"), "no colors on a terminal")
    files.check(b"\x1b" not in on_terminal(files, "faulty.rs", "--color", "never"), "colors though none are asked for")
    files.end("links, permissions and devices stay, and results are whole")


if __name__ == "__main__":
    main(*sys.argv[1:])
