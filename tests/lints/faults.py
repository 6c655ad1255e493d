#!/usr/bin/env python3
"""Runs each source of docs/FAULTS.md, and compares what is printed with the lines below it.

  faults.py [PROGRAM]

PROGRAM is `logos` as the gate has built it, if it is not given. Every code of the library needs an
entry, and every kind a row of its table. Every code also needs a row of `logos_cli` that is named
after it and shows how the program prints it. Each help in these rows is a sentence of the entry, or
what the table has for the kind, and every code and kind but `Previous` has one. The last line is
`faults: N passed, M failed`."""
import glob
import os
import re
import subprocess
import sys
import tempfile

from common import ROOT, finish, read

PAGE = f"{ROOT}/docs/FAULTS.md"
SHOWN = f"{ROOT}/tests/rows/logos_cli/faults.rows"
REPORTS = f"{ROOT}/tests/rows/logos_cli/*.rows"
# The enums that list the codes and kinds, each with the level of its names on the page.
CODES = f"{ROOT}/crates/logos_token/src/error/fault_code.rt", "FaultCode"
KINDS = [(f"{ROOT}/crates/logos_lexeme/src/lexeme.rt", "LexicalKind"), (f"{ROOT}/crates/logos_pattern_tokens/src/error.rt", "Kind")]


def variants(path, name):
    """Returns the names of an enum's variants."""
    body = re.search(rf"pub enum {name} \{{\n(.*?)\n\}}", read(path), re.S)
    return re.findall(r"^    ([A-Z]\w*)", body.group(1), re.M) if body else []


def written_out(source):
    """Returns the source with each `⟨a×n⟩` as n times a."""
    return re.sub(r"⟨(.+?)×(\d+)⟩", lambda it: it.group(1) * int(it.group(2)), source)


def printed(program, room, source, given):
    """Returns what the program prints for the source: its items of the input, or else its
    faults."""
    with open(f"{room}/enum.rs", "w", encoding="utf-8") as out:
        out.write(source)
    words = ["gen", "enum.rs"]
    if given is not None:
        with open(f"{room}/input", "w", encoding="utf-8") as out:
            out.write(given)
        words = ["lex", "enum.rs", "input"]
    ran = subprocess.run([program, *words], cwd=room, capture_output=True, text=True, check=False)
    return ran.stderr if given is None else ran.stdout + ran.stderr


def entries(page):
    """Yields the heading of each entry, its source, its input or None, and the lines wanted."""
    heading = source = given = None
    for mark, name, body in re.findall(r"^(?:### ([^\n]+)|```(\w+)\n(.*?)^```)$", page, re.M | re.S):
        if mark:
            heading, source, given = mark, None, None
        elif name == "rust":
            source = written_out(body.removesuffix("\n"))
        elif name == "input":
            given = body
        elif name == "text" and source is not None:
            yield heading, source, given, body
            source = given = None


def rows(page):
    """Yields the name of each kind in the tables, a source that has it, and the beginning of the
    line wanted."""
    for kind, shown, place in re.findall(r"^\| `(\w+)` \| `+ ?(.+?) ?`+ \| ([\d.]+) \|", page, re.M):
        if ".." in place:
            yield kind, shown, f"{place} Lexical: unreadable source: {kind}"
        else:
            yield kind, f'enum E {{ #[regex(r"{shown}")] A }}', f"17..{len(shown) + 20} Regex: regex fault at byte {place}: {kind}"


def shown():
    """Returns the codes that a row of `logos_cli` shows: it is named after the code, and its
    messages have a line for it."""
    found = set()
    for row in read(SHOWN).split("\n=== the fault ")[1:]:
        code, _, rest = row.partition("\n")
        messages = rest.partition("\n--- stderr\n")[2]
        # The place of an earlier text is a note of the fault in front of it.
        line = r"^note: Previous" if code == "Previous" else rf"^error\[{code}\]: "
        if re.search(line, messages, re.M):
            found.add(code)
    return found


def reports():
    """Yields the code, the message and the help or None of each error in a report of the rows of
    `logos_cli`."""
    for path in sorted(glob.glob(REPORTS)):
        for messages in re.findall(r"\n--- stderr\n(.*?)(?=\n(?:---|===) |\Z)", read(path), re.S):
            for report in messages.split("\n\n"):
                head = re.match(r"error\[(\w+)\]: (.*)", report)
                help_line = re.search(r"^ += help: (.*)", report, re.M)
                if head:
                    yield head[1], head[2], help_line and help_line[1]


def words(page):
    """Returns the words below each heading of a code, and what stands in the last column for each
    kind of pattern fault."""
    found = {name: " ".join(body.split()) for name, body in re.findall(r"^### `(\w+)`\n(.*?)(?=^##)", page, re.M | re.S)}
    cells = dict(re.findall(r"^\| `(\w+)` \| .* \| ([^|\n]+) \|$", page.partition("## Kinds of pattern faults")[2], re.M))
    return found, cells


def help_faults(page):
    """Returns what is wrong with the helps that reports have."""
    found, cells = words(page)
    failed, met = [], set()
    for code, message, text in reports():
        name = message.split()[-1] if code == "Regex" else code
        if text is None:
            continue
        met.add(name)
        if code == "Regex":
            fits = text in cells.get(name, "").split("; or: ")
        else:
            fits = f"{text[0].upper()}{text[1:]}." in found.get(code, "")
        if not fits:
            failed.append(f"the help of {name} is not on the page: {text}")
    wanted = [name for name in [*variants(*CODES), *variants(*KINDS[1])] if name not in ("Regex", "Previous")]
    failed += [f"{name} has no help in a row of logos_cli" for name in wanted if name not in met]
    return failed


def main():
    program = os.path.realpath((sys.argv[1:] or [f"{ROOT}/out/programs/logos"])[0])
    if not os.access(program, os.X_OK):
        finish("faults", 0, [f"the program {program} is missing"])
    page = read(PAGE)
    asked = [*entries(page), *[(kind, source, None, line + "\n") for kind, source, line in rows(page)]]
    printed_by_cli = shown()
    met = {it[0].strip("`") for it in asked}
    wanted = [*variants(*CODES), *[name for kind in KINDS for name in variants(*kind)]]
    failed = [f"{name} has no entry" for name in wanted if name not in met]
    failed += [f"{name} has no row in tests/rows/logos_cli/faults.rows" for name in variants(*CODES) if name not in printed_by_cli]
    failed += help_faults(page)
    passed = 0
    with tempfile.TemporaryDirectory() as room:
        for heading, source, given, lines in asked:
            found = printed(program, room, source, given)
            if found == lines:
                passed += 1
            else:
                failed.append(f"{heading}: wanted\n{lines}but this is printed:\n{found}")
    finish("faults", passed, failed)


main()
