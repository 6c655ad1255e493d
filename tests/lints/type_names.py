#!/usr/bin/env python3
"""Looks for types that have one name and stand in several crates.

  type_names.py

It prints the names that stand in several crates, and why they do. A type is a `struct`, an `enum`
or a `trait` in `src` of a crate. Its name stands in one crate, but for those that are listed here
with the crates that have them and the reason why they stay. A name that is listed has to stand in
each of its crates, so the list only gets shorter. Each name counts as one. The last line is
`type_names: N passed, M failed`."""
import collections
import glob
import os
import re

from common import ROOT, finish, has_option, read

# With fewer names that pass, sources were lost, or are no longer read.
LEAST = 300
TYPE = re.compile(r"^ *(?:pub(?:\([a-z ]+\))? )?(?:struct|enum|trait) ([A-Z]\w*)", re.M)
NOT_YET = "different things, of which one has to get another name"
# Each name that stands in several crates: these, and why it stays.
STAYS = {
    "Config": ("code graph", "the options of a generator and of a graph, both public"),
    "Note": ("derive layout", "a line under a diagnostic, and a comment in a text that is laid out, both public"),
    "Lexer": ("causes machine", "an accepted source with what was generated from it, and a code on an input, both public"),
    "Piece": ("lexeme text", "the value of a part of a string, and a part of a source in its generated code, which is public"),
    "Literal": ("pattern token", "a literal of a source, and one that spells a pattern, both public"),
}


def declared():
    """Returns for each name of a type the crates that declare it."""
    found = collections.defaultdict(set)
    for path in sorted(glob.glob(f"{ROOT}/crates/*/src/**/*.rt", recursive=True)):
        crate = os.path.relpath(path, f"{ROOT}/crates").split("/")[0]
        for name in TYPE.findall(read(path)):
            found[name].add(crate)
    return found


def fault(name, crates):
    """Returns what is wrong with a name that stands in these crates, or None."""
    stays = STAYS[name][0].split() if name in STAYS else []
    if len(crates) > 1 and set(crates) - {f"logos_{it}" for it in stays}:
        return f"{name} stands in {', '.join(sorted(crates))}"
    gone = [it for it in stays if f"logos_{it}" not in crates]
    return f"{name} is not in logos_{gone[0]}, and leaves the list" if gone else None


def main():
    has_option()
    found = declared()
    several = {name: crates for name, crates in sorted(found.items()) if len(crates) > 1}
    for name, crates in several.items():
        print(f"{name:12} {len(crates)}  {STAYS[name][1] if name in STAYS else 'no reason'}")
    print(f"{len(found)} names of types, {len(several)} in several crates")
    failed = [it for it in (fault(name, found.get(name, set())) for name in sorted({*found, *STAYS})) if it]
    finish("type_names", len({*found, *STAYS}) - len(failed), failed, LEAST)


main()
