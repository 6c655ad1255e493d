"""Wrong bodies, as the pages `gate.md` and `others.md` list them."""

import re
from dataclasses import dataclass
from pathlib import Path

from places import function_at


class BadPage(Exception):
    """A page that cannot be read."""


@dataclass(frozen=True)
class Change:
    """A part of a file, from one offset to another, and what stands there in its place."""

    file: str
    start: int
    end: int
    new: str

    def overlaps(self, other):
        return self.file == other.file and self.start < other.end and other.start < self.end


@dataclass
class Body:
    """A wrong body: its changes, and the functions in which they lie. What is wrong with its page
    stands in `fault`."""

    crate: str
    name: str
    changes: list
    functions: list
    fault: str = ''

    @property
    def label(self):
        return f'{self.crate}/{self.name}'

    def clashes(self, other):
        """Whether the two cannot be tried in one check."""
        is_near = any(it.overlaps(that) for it in self.changes for that in other.changes)
        return is_near or any(it in other.functions for it in self.functions)


def pairs_of(block):
    """The old and the new texts of a block, each with its file."""
    file, old, pairs = None, None, []
    for line in block.split('\n'):
        word, _, text = line.partition(':')
        text = text.removeprefix(' ')
        if word == 'file':
            file = text.strip()
        elif word == 'old':
            old = text
        elif word == 'new' and file and old:
            pairs.append((file, old, text))
            old = None
    return pairs


def change_of(folder, file, old, new):
    """The change of a pair; its old text must stand in the file once."""
    path = folder / file
    text = path.read_text(encoding='utf-8') if path.is_file() else ''
    if text.count(old) != 1:
        raise BadPage(f'`{old.strip()}` stands in {file} {text.count(old)} times')
    start = text.index(old)
    return Change(file, start, start + len(old), new)


def body_of(folder, name, block):
    """The body of a heading."""
    body = Body(folder.name, name, [], [])
    try:
        body.changes = [change_of(folder, *pair) for pair in pairs_of(block)]
    except BadPage as error:
        body.fault = str(error)
        return body
    if not body.changes:
        body.fault = 'it changes nothing'
    for change in body.changes:
        found = function_at(folder, change.file, change.start)
        if found and found not in body.functions:
            body.functions.append(found)
    return body


def pages_in(folder, names):
    """The pages of these names that a crate has."""
    return [it for it in (folder / 'must-fail' / name for name in names) if it.is_file()]


def listed_on(page):
    """The name and the block of each body that a page lists."""
    text = page.read_text(encoding='utf-8')
    found = re.findall(r'^### (\S+)\n\n(?:.+\n)+\n```\n([\s\S]*?)^```$', text, re.M)
    if len(found) != len(re.findall(r'^### ', text, re.M)):
        raise BadPage(f'{page}: a heading is followed by no sentence and block')
    return found


def bodies_of(folder, names):
    """The bodies that the pages of these names list in the folder of a crate."""
    found = [it for page in pages_in(folder, names) for it in listed_on(page)]
    listed = [name for name, _ in found]
    twice = [it for it in listed if listed.count(it) > 1]
    if twice:
        raise BadPage(f'{folder.name}: the body {twice[0]} is listed twice')
    return [body_of(folder, name, block) for name, block in found]


def together(bodies):
    """The first body, and those after it that can be tried in one check with it and with one
    another."""
    chosen = []
    for body in bodies:
        if not any(body.clashes(it) for it in chosen):
            chosen.append(body)
    return chosen


def texts_with(folder: Path, bodies):
    """The files that bodies change, with all their changes."""
    texts = {}
    changes = [change for body in bodies for change in body.changes]
    for change in sorted(changes, key=lambda it: it.start, reverse=True):
        text = texts.get(change.file) or (folder / change.file).read_text(encoding='utf-8')
        texts[change.file] = text[: change.start] + change.new + text[change.end :]
    return texts
