#!/usr/bin/env python3
"""Plants faults into the tests: runs each part in a copy of the checkout, where it has to pass, and
with each plant of tests/planted.toml, where it has to fail.

  python3 tests/planted.py [PART ..]

It is run by hand, after `tests/quick.sh`, whose programs it uses. It shows that no part passes
whatever is wanted, or with nothing to do. In place of the proofs, which take an hour, stands a
toolchain that counts the crates of the copy, as `rt ci` does, and the verdicts on wrong bodies are
those that the last gate has kept. The last line is `N passed, M failed`: a plant has passed if its
part failed, and a part that fails as it stands counts as failed."""
import os
import pathlib
import re
import shutil
import subprocess
import sys
import tempfile
import tomllib

import run_parts

ROOT = pathlib.Path(run_parts.ROOT)
STAND_IN = """#!/usr/bin/env bash
case $1 in
    ci)
        mkdir -p crates/logos_program/out
        echo nothing > crates/logos_program/out/logos_program
        echo "$(($(grep -c ':' crates.txt) - $(grep -c '^#.*:' crates.txt))) passed, 0 failed" ;;
    doc) echo START-HERE.md ;;
    *) echo a toolchain that proves nothing ;;
esac
"""


def step(copy, kind, where, *words):
    """Takes a step of a plant. It has to change something."""
    if kind == "remove":
        found = [path for pattern in (where, *words) for path in copy.glob(pattern)]
        for path in found:
            shutil.rmtree(path) if path.is_dir() and not path.is_symlink() else path.unlink()
    elif kind == "rows":
        found = list((copy / where).glob("*.rows"))
        for path in found:
            path.write_text("# rows: 0\n", encoding="utf-8")
    else:
        text = (copy / where).read_text(encoding="utf-8")
        ways = {"change": lambda: text.replace(words[0], words[1], 1), "add": lambda: text + words[0],
                "cut": lambda: re.sub(words[0], lambda _: "".join(words[1:]), text, flags=re.M | re.S)}
        changed = ways[kind]()
        found = changed != text
        (copy / where).write_text(changed, encoding="utf-8")
    if not found:
        sys.exit(f"planted: {kind} {where} changes nothing")


def run(room, part, plant):
    """Runs a part in a fresh copy of the checkout with a plant. Returns whether it passed, and its
    last line."""
    copy = pathlib.Path(room) / "copy"
    shutil.copytree(ROOT, copy, symlinks=True, ignore=shutil.ignore_patterns(".git", "out"))
    subprocess.run(["git", "init", "-q", str(copy)], check=True)
    if part.row == "wrong_bodies" and (ROOT / "out/wrong_bodies").is_dir():
        shutil.copytree(ROOT / "out/wrong_bodies", copy / "out/wrong_bodies")
    path = os.environ["PATH"]
    try:
        for it in plant:
            step(copy, *it)
        given = {**os.environ, "PATH": f"{room}/bin:{path}" if part.row == "proofs" else path}
        done = subprocess.run(run_parts.words(part, False), cwd=copy, env=given, stdin=subprocess.DEVNULL, stdout=subprocess.PIPE,
                              stderr=subprocess.STDOUT, text=True, errors="replace", check=False)
    finally:
        shutil.rmtree(copy)
    _, failed, _ = run_parts.counts(part, done.stdout, done.returncode)
    return failed == 0, done.stdout.rstrip().rsplit("\n", 1)[-1]


def main(names):
    with open(ROOT / "tests/planted.toml", "rb") as it:
        plants = tomllib.load(it)
    parts = {it.row: it for it in run_parts.listed() if it.by != "rattle" and it.row not in run_parts.MAKERS.values()}
    unknown = [it for it in [*names, *parts] if it not in parts or it not in plants]
    if unknown:
        sys.exit(f"planted: nothing is planted into a part {unknown[0]}")
    right = wrong = 0
    with tempfile.TemporaryDirectory(prefix="planted-") as room:
        tool = pathlib.Path(room) / "bin/rt"
        tool.parent.mkdir()
        tool.write_text(STAND_IN, encoding="utf-8")
        tool.chmod(0o755)
        for name in names or parts:
            for what, plant in {"nothing": [], **plants[name]}.items():
                passes, last = run(room, parts[name], plant)
                is_right = passes == (not plant)
                right, wrong = right + is_right, wrong + (not is_right)
                print(f"{name}, planted {what}: {'as it has to be' if is_right else 'NOT AS IT HAS TO BE'}: {last}", flush=True)
    print(f"{right} passed, {wrong} failed")
    return 1 if wrong else 0


if __name__ == "__main__":
    sys.exit(main(sys.argv[1:]))
