#!/usr/bin/env python3
"""Looks up each contract that docs/PROOFS.md cites.

  contracts.py

Each item of the lists up to the heading `Only tested` ends with `By` and functions, as `generate`
or `Parser::parse_generic`, and after a colon clauses of the function before it. A function has to
stand in the crates with which the item or the one around it begins, or anywhere where it names
none, and have a clause that promises something; a clause has to be one of its own. A type or a
module counts as found where it has such a function, and a trait's word where some `impl` of it has
one. The last line is `contracts: N passed, M failed`; the line before it counts the functions with
a body, and those of them that have a clause of their own, so that pages can state both."""
import pathlib
import re

from common import ROOT, finish, has_option, items, read

CRATES = pathlib.Path(ROOT, "crates")
# With fewer that pass, rows were lost, or are no longer read.
LEAST = 270
FUNCTION = re.compile(r"^( *)(?:pub(?:\([^)]*\))? )?(?:const )?fn (\w+)", re.M)
CLAUSE = re.compile(r"\b(?:ensures|ghost ensures) (\w+)? ?\{")


def functions(text):
    """Yields the name of each function of a text, and its contract: the lines up to the one that
    opens its body."""
    for head in FUNCTION.finditer(text):
        lines = []
        for line in text[head.start() :].split("\n"):
            lines.append(line)
            opens = line == head[1] + "{" or line.startswith(head[1] + "{}")
            if opens or line.endswith(";") or line.endswith("{") and not re.match(r" *(requires|ensures)\b", line):
                break
        yield head[2], "\n".join(lines)


class Crate:
    """The functions of a crate with their clauses, its modules, and the types that have functions
    with clauses."""

    def __init__(self, folder):
        self.clauses, self.holders = {}, set()
        # How many functions have a body, and how many of these a clause.
        self.bodies, self.stating = 0, 0
        for path in (folder / "src").rglob("*.rt"):
            self.read(path.read_text(encoding="utf-8"), path.stem)

    def read(self, text, module):
        """Reads a file."""
        for holder, part in self.parts(text):
            members = re.findall(r"^    ghost (\w+) = ", part, re.M)
            for name, contract in functions(part):
                stated = CLAUSE.findall(contract)
                self.bodies += not contract.endswith(";")
                self.stating += bool(stated) and not contract.endswith(";")
                found = {clause or "" for clause in stated} | set(members if not contract.count("\n") else [])
                self.clauses.setdefault(name, set()).update(found)
                if found:
                    self.holders |= {module, *holder}
        for words in re.findall(r"\bghost output\b", text):
            self.holders.add("Display")

    @staticmethod
    def parts(text):
        """Yields the blocks of a file, each with the types and traits that its head names."""
        heads = [*re.finditer(r"^(?:impl|pub trait|trait)\b([^{]*)", text, re.M)]
        ends = [it.start() for it in heads[1:]] + [len(text)]
        yield set(), text[: heads[0].start()] if heads else text
        for head, end in zip(heads, ends):
            yield set(re.findall(r"[A-Z]\w*", head[1])), text[head.start() : end]


def rows(text):
    """Yields the line, the crates and the contracts of each item of the lists; the contracts are
    None where it names none."""
    crates = []
    for number, item in items(text.split("\n## Only tested")[0]):
        if item.startswith("#"):
            crates = []
        elif item.lstrip().startswith("- "):
            begins = re.match(r" *- (`logos_\w+`[^:]*):", item)
            crates = re.findall(r"`(logos_\w+)`", begins[1]) if begins else crates if item.startswith(" ") else []
            yield number, crates, item.rpartition(" By ")[2] if " By " in item else None


def faults_of(cell, known):
    """Yields, for each name among the contracts of an item, what is wrong with it, or None."""
    if cell is None:
        yield "an item without a contract"
        return
    for group in cell.split(";"):
        functions, _, clauses = group.partition(":`" if ":`" in group else ": ")
        last = None
        for name in re.findall(r"`([\w:]+)`", functions):
            *path, last = name.split("::")
            found = [crate for crate in known if crate.clauses.get(last)]
            held = [crate for crate in known if last in crate.holders]
            yield None if found or held else f"no function {name} with a contract"
        for clause in re.findall(r"`(\w+)`", clauses):
            yield None if any(clause in crate.clauses.get(last, ()) for crate in known) else f"{last} has no clause {clause}"


def main():
    has_option()
    crates = {folder.name: Crate(folder) for folder in CRATES.glob("logos_*")}
    passed, faults = 0, []
    for number, named, cell in rows(read("docs/PROOFS.md")):
        missing = [name for name in named if name not in crates]
        known = [crates[name] for name in named if name in crates] or list(crates.values())
        for fault in [*(f"no crate {name}" for name in missing), *faults_of(cell, known)]:
            passed += fault is None
            faults += [f"docs/PROOFS.md:{number}: {fault}"] if fault else []
    bodies, stating = (sum(getattr(crate, name) for crate in crates.values()) for name in ("bodies", "stating"))
    print(f"contracts: {stating:,} of {bodies:,} functions have a clause of their own")
    finish("contracts", passed, faults, LEAST)


main()
