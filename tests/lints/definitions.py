#!/usr/bin/env python3
"""Compares docs/DEFINITIONS.md with the definitions in `specs`.

  definitions.py

A line of a list under the heading of a crate, or of a module of one, names files of its `specs`,
and what they define.
Looked up are

- each file: it is there, and stands on the page once;
- each definition that a clause of a public function cites: its file stands on the page, and it has
  a comment, above itself, above the type that it belongs to, or above the block of lines in which
  it is declared;
- each definition that one of these needs, directly or by others: its file stands on the page;
- each file that a table of claims names: it stands on the page under its crate;
- each code of a fault: the page has it, and the definition of its fault is declared in the file of
  its line;
- each other name in backticks: it is a path, or its words stand somewhere in the crates.

A public function is a `pub fn` of a module that is public or that another public one hands names on
from; all functions count of the crates that do what a program does. The last line is
`definitions: N passed, M failed`."""
import pathlib
import re

from common import ROOT, finish, has_option, items, read

TOP = pathlib.Path(ROOT)
CRATES = TOP / "crates"
PAGE = "docs/DEFINITIONS.md"
# With fewer that pass, lines were lost, or are no longer read.
LEAST = 6000
WORD = re.compile(r"[A-Za-z_][\w-]*")
PATH = re.compile(r"[a-z_]+(/[A-Za-z_]+)+(\.\w+)?")
NAME = re.compile(r"[A-Za-z_][A-Za-z0-9_]*(::[A-Za-z_][A-Za-z0-9_]*)*!?")
FILE = re.compile(r"(\w+/)*[A-Z]\w*")
USE = re.compile(r"^(?:pub )?use Rattle\.(logos_\w+)\.specs\.([\w.]+)\.\{([^}]*)\}", re.M)
GHOST_USE = re.compile(r"^ *(?:pub(?:\([^)]*\))? )?ghost use Rattle\.(logos_\w+)\.specs\.([\w.]+?)(?:\.\{([^}]*)\}| as (\w+));", re.M)
HEAD = re.compile(r"^( *)(?:abbrev |unfoldable )?(?:pub )?(record |data )?(?:pub )?([A-Za-z_][\w-]*)(?: [({].*)? :")
# The crates that do what a program does.
PROGRAMS = ("logos_cli", "logos_program", "logos_show")
CONTRACT = re.compile(r"^ *(pub )?(?:const )?fn (\w+).*?(?=^ *\{|\n\{)", re.M | re.S)
CLAUSE = re.compile(r"(?:requires|ensures)[^{]*\{(.*?)\}\s*(?=requires|ensures|decreases|\Z)", re.S)


def spec(crate, module):
    """The file of a module of definitions, from `crates` on."""
    return f"{crate}/specs/{module.replace('.', '/')}.antt"


def imports(listed):
    """Yields the names of a list of imports: the one here and the one there."""
    for entry in filter(None, map(str.strip, listed.split(","))):
        there, _, here = entry.partition(" as ")
        yield here.strip() or there, there.strip()


class Specs:
    """A file of definitions: what it imports, and what it declares, each with its text."""

    def __init__(self, path):
        text = (CRATES / path).read_text(encoding="utf-8") if (CRATES / path).is_file() else ""
        self.lines = text.split("\n")
        self.names = {}
        for crate, module, listed in USE.findall(text):
            if "declared" not in module:
                self.names.update((here, (spec(crate, module), there)) for here, there in imports(listed))
        self.heads = [(number, *self.head(line)) for number, line in enumerate(self.lines) if self.head(line)]
        self.declared = {}
        for at, (number, indent, _, name) in enumerate(self.heads):
            ends = [other[0] for other in self.heads[at + 1 :] if other[1] <= indent and other[3] != name]
            lines = self.lines[number : ends[0] if ends else None]
            body = "\n".join(line for line in lines if not line.lstrip().startswith("--"))
            self.declared.setdefault(name, (number, body))

    @staticmethod
    def head(line):
        """The indent, whether it is a type, and the name, where a line begins a declaration."""
        found = None if re.match(r" *--|(pub )?use ", line) else HEAD.match(line)
        return (len(found[1]), bool(found[2]), found[3]) if found else None

    def has_comment(self, name):
        """Whether a comment says what a declared name means."""
        number = self.declared[name][0]
        indent = self.head(self.lines[number])[0]
        for line in reversed(self.lines[:number]):
            if line.lstrip().startswith("--"):
                return True
            if not line.strip() or line.startswith(("use ", "pub use ", "module ")):
                break
        outer = [head for head in self.heads if head[0] < number and head[1] < indent]
        return bool(outer) and outer[-1][2] and self.has_comment(outer[-1][3])


class Definitions:
    """All definitions, read as they are asked for."""

    def __init__(self):
        self.files = {}

    def of(self, path):
        """The file at a path."""
        return self.files.setdefault(path, None) or self.files.update({path: Specs(path)}) or self.files[path]

    def origin(self, path, name):
        """The file that declares a name of a file, and its name there; `None` for one of a library
        or a declared type."""
        file = self.of(path)
        if name in file.declared:
            return path, name
        return self.origin(*file.names[name]) if name in file.names else None

    def needed(self, path, name):
        """Yields the definitions that a definition cites."""
        file = self.of(path)
        for word in set(WORD.findall(file.declared[name][1])):
            found = (path, word) if word in file.declared else self.origin(*file.names[word]) if word in file.names else None
            if found:
                yield found

    def all_needed(self, first):
        """These definitions with all that they need."""
        found, todo = set(first), list(first)
        while todo:
            new = set(self.needed(*todo.pop())) - found
            found |= new
            todo += new
        return found

    def cited(self, text, every):
        """Yields each definition that the contract of a function of a text cites, and the
        function."""
        names, aliases = {}, {}
        for crate, module, listed, alias in GHOST_USE.findall(text):
            if "declared" not in module:
                names.update((here, (spec(crate, module), there)) for here, there in imports(listed))
                aliases.update({alias: spec(crate, module)} if alias else {})
        for contract in CONTRACT.finditer(text):
            clauses = " ".join(CLAUSE.findall(contract[0])) if contract[1] or every else ""
            found = [names[word] for word in set(WORD.findall(clauses)) & set(names)]
            found += [(aliases[alias], name) for alias, name in re.findall(r"\b(\w+)\.([A-Za-z_][\w-]*)", clauses) if alias in aliases]
            for place in found:
                if self.origin(*place):
                    yield self.origin(*place), contract[2]


def public_files(crate):
    """The source files of a crate's public modules, and of those that names are handed on from; all
    of what does what a program does."""
    if crate.name in PROGRAMS:
        return sorted((crate / "src").rglob("*.rt"))
    found, todo = [], [(crate / "src/lib.rt", crate / "src")]
    while todo:
        path, folder = todo.pop()
        if path.is_file() and path not in found:
            found.append(path)
            for name in re.findall(r"^pub (?:mod |use (?:self::|crate::)?)(\w+)(?:;|::)", path.read_text(encoding="utf-8"), re.M):
                todo.append((folder / f"{name}.rt", folder / name))
    return found


class Page:
    """What is looked up on the page: its files, its reading orders, its codes, its other names."""

    def __init__(self):
        self.passed, self.faults = 0, []
        self.listed, self.orders, self.codes, self.others = {}, [], {}, []
        crate, folder, heading = None, "", ""
        for number, text in items(read(PAGE)):
            if text.startswith("#"):
                heading = text
                found = re.search(r"`crates/(\w+)/specs((?:/\w+)*)`", text)
                crate, folder = (found[1], found[2].lstrip("/")) if found else (None, "")
                self.others += [(number, name) for name in re.findall(r"`([^`]*)`", text)]
            elif text.startswith("- ") and crate:
                self.add_files(number, crate, folder, text)
            elif text.startswith("- ") and heading == "## Faults, by their codes":
                self.add_codes(number, text)
            elif text.startswith("|"):
                self.add_order(number, text)
            else:
                self.others += [(number, name) for name in re.findall(r"`([^`]*)`", text)]

    def count(self, found, number, what):
        """Counts something, and notes it where it was not found."""
        self.passed += bool(found)
        self.faults += [] if found else [f"{PAGE}:{number}: {what}"]

    def add_files(self, number, crate, folder, text):
        """Adds the files of a line, which stand in a folder of the crate's `specs`."""
        files, _, words = text.partition(": ")
        for name in re.findall(r"`([^`]*)`", files):
            path = spec(crate, f"{folder}/{name}" if folder else name)
            self.count((CRATES / path).is_file(), number, f"no such file: {path}")
            self.count(path not in self.listed, number, f"twice on the page: {path}")
            self.listed[path] = number
        self.count(words, number, "nothing says what these files define")
        self.others += [(number, name) for name in re.findall(r"`([^`]*)`", words)]

    def add_codes(self, number, text):
        """Adds the codes of a line, each with the definitions of its fault."""
        names = re.match(r"- `([^`]*)`: (.*)", text)
        for code, given in re.findall(r"`(\w+)`(?: \(([^)]*)\))?", names[2]):
            small = re.sub(r"(?<!^)(?=[A-Z])", "_", code).lower()
            self.codes.setdefault(code, []).append((number, names[1], re.findall(r"`(\w+)`", given) or [small]))

    def add_order(self, number, text):
        """Adds the files of a table of claims; a name of a crate stands in front of those of its
        `specs`."""
        crate = None
        for name in re.findall(r"`([^`]*)`", text):
            if (CRATES / name).is_dir() and not FILE.fullmatch(name):
                crate = name
                self.others.append((number, name))
            elif crate and FILE.fullmatch(name):
                self.orders.append((number, spec(crate, name)))

    def look_up(self, definitions):
        """Looks up what the page has, apart from its files."""
        for number, path in self.orders:
            self.count(path in self.listed, number, f"a file of a reading order that is not listed: {path}")
        enum = read("crates/logos_token/src/error/fault_code.rt").split("pub enum FaultCode {", 1)[1]
        codes = set(re.findall(r"^    ([A-Z]\w*),", enum.split("\n}", 1)[0], re.M))
        for code in sorted(codes | set(self.codes)):
            self.count(code in codes and code in self.codes, 0, f"a code that the page or the enum lacks: {code}")
            for number, path, names in self.codes.get(code, []):
                self.count(path in self.listed, number, f"not listed: {path}")
                for name in names:
                    self.count(name in definitions.of(path).declared, number, f"{path} does not declare {name}")
        words = set()
        for path in CRATES.glob("*/s*/**/*"):
            if path.suffix in (".rt", ".antt") and "out" not in path.parts:
                words.update(re.findall(r"[A-Za-z_]\w*", path.read_text(encoding="utf-8")))
        for number, name in self.others:
            if PATH.fullmatch(name):
                self.count((TOP / name).exists() or (CRATES / name).exists(), number, f"no such path: {name}")
            elif NAME.fullmatch(name):
                known = all(word in words for word in re.findall(r"\w+", name))
                self.count(known or (CRATES / name).is_dir(), number, f"nowhere in the crates: {name}")


def main():
    has_option()
    page, definitions, cited = Page(), Definitions(), {}
    page.look_up(definitions)
    for crate in sorted(CRATES.glob("logos_*")):
        for path in public_files(crate):
            for found, function in definitions.cited(path.read_text(encoding="utf-8"), crate.name in PROGRAMS):
                cited.setdefault(found, f"{path.relative_to(CRATES)}: {function}")
    for (path, name), place in sorted(cited.items()):
        page.count(definitions.of(path).has_comment(name), 0, f"no comment says what {name} of {path} means, which {place} cites")
    for path, name in sorted(definitions.all_needed(cited)):
        page.count(path in page.listed, 0, f"not listed: {path}, for {name}")
    print(f"definitions: {len(page.listed)} files, {len(cited)} definitions that contracts cite")
    finish("definitions", page.passed, page.faults, LEAST)


main()
