#!/usr/bin/env python3
"""Runs each command of docs/GUIDE.md and of README.md at the top of the repository, and compares
what it prints with what stands below it.

  guide.py LOGOS LOGOS_CLI LOGOS_SHOW

A command stands after `$ ` in a block of the kind `console`. The script fails where the guide has a
block of another kind, where a page has a block without a command, or a command outside blocks; and
where other numbers of blocks and commands ran than are stated here. The enum of the guide has to be
that of the tokenizer."""
import os
import re
import subprocess
import sys

from checks import Checks, read

ROOT = os.path.dirname(os.path.dirname(os.path.realpath(__file__)))
BLOCK = re.compile(r"^```(\w*)\n(.*?)^```$", re.M | re.S)
COMMAND = re.compile(r"^\$ (.*)", re.M)


def printed(command, path):
    """Returns what a command prints, and its status if that is not 0."""
    how = {"stdin": subprocess.DEVNULL, "stdout": subprocess.PIPE, "stderr": subprocess.STDOUT}
    ran = subprocess.run(["bash", "-o", "pipefail", "-c", command], cwd=ROOT, env={**os.environ, "PATH": path}, check=False, **how)
    return ran.stdout.decode() + f"status {ran.returncode}\n" * (ran.returncode != 0)


def check_page(checks, name, path, blocks, commands):
    """Runs the commands of a page, which has so many blocks of commands and so many commands."""
    checks.case, text = name, read(f"{ROOT}/{name}").decode()
    consoles = [body for kind, body in BLOCK.findall(text) if kind == "console"]
    checks.need(not COMMAND.search(BLOCK.sub("", text)), "a command outside blocks")
    checks.need(len(consoles) == blocks, f"{len(consoles)} blocks, where {blocks} are stated")
    count = 0
    for body in consoles:
        found = COMMAND.findall(body)
        checks.need(found, f"a block has no command:\n{body}")
        shown = "".join(f"$ {it}\n{printed(it, path)}" for it in found)
        checks.need(shown == body, f"other output:\n{shown}in place of\n{body}")
        count += len(found)
    checks.need(count == commands, f"{count} commands ran, where {commands} are stated")
    checks.passed += count


def main(*programs):
    checks = Checks("guide", programs[0])
    for name, program in zip(("logos", "logos_cli", "logos_show"), programs):
        os.symlink(program, name)
    path = f"{os.getcwd()}:{os.environ['PATH']}"
    kinds = {kind for kind, _ in BLOCK.findall(read(f"{ROOT}/docs/GUIDE.md").decode())}
    checks.need(kinds == {"console"}, f"the guide has blocks of the kinds {kinds}")
    check_page(checks, "docs/GUIDE.md", path, 34, 60)
    check_page(checks, "README.md", path, 1, 2)
    tokenizer = re.search(rb'^pub const SOURCE[^"]*"(.*?)^"#;$', read(f"{ROOT}/crates/logos_codegen/src/expr.rt"), re.M | re.S)
    checks.need(tokenizer[1] == read(f"{ROOT}/docs/guide/expr.rs"), "another enum than that of the tokenizer")
    checks.end(f"{checks.passed} commands print what the pages show")


if __name__ == "__main__":
    main(*map(os.path.realpath, sys.argv[1:]))
