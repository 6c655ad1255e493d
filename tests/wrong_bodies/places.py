"""Which function stands at a place of a source."""

import re
from dataclasses import dataclass

FUNCTION = re.compile(r'( *)(?:pub(?:\([^)]*\))? )?(?:const )?fn (\w+)')
IMPL = re.compile(r'impl\b(.*)')
ANY = r'\w*'


@dataclass(frozen=True)
class Function:
    """A function as it stands in a file: its crate and module, the type of its `impl`, with the
    trait if there is one, its name, and its lines."""

    crate: str
    module: str
    owner: str
    name: str
    file: str
    first_line: int
    last_line: int

    @property
    def path(self):
        """How a check is asked for this function alone: its path below the crate, or of a method
        its type's name and its own."""
        if self.owner:
            return f'{self.owner.removesuffix(ANY)}::{self.name}'
        return '::'.join([*self.module.split('::')[1:], self.name])

    def is_at(self, path):
        """Whether the prover's path names this function, or a closure in it. A method is named by
        the module of its type."""
        before = rf'{self.crate}::(?:\w+::)*' if self.owner else f'{self.module}::'
        name = f'{self.owner}::{self.name}' if self.owner else self.name
        return re.fullmatch(rf'{before}{name}|{before}fn::{name}::.*', path) is not None

    def has_line(self, file, line):
        return file == self.file and self.first_line <= line <= self.last_line


def without_angles(text):
    """A text without what stands between angle brackets."""
    kept, depth = '', 0
    for before, sign in zip(' ' + text, text):
        if sign == '<':
            depth += 1
        elif sign == '>' and before != '-':
            depth -= 1
        elif not depth:
            kept += sign
    return kept


def owner_of(header):
    """How the prover names what an `impl` is for, as a pattern: the type, and then the trait, if
    there is one, with what that is given."""
    words = without_angles(header).split('{')[0].split()
    last = [it.split('::')[-1] for it in words]
    if 'for' in last:
        at = last.index('for')
        return f'{last[at + 1]}{last[at - 1]}{ANY}'
    return last[0]


def module_of(crate, file):
    """The path of the module that a file holds."""
    inside = file.removeprefix('src/').removesuffix('.rt')
    return crate if inside in ('lib', 'main') else '::'.join([crate, *inside.split('/')])


def last_line_of(lines, first, indent):
    """The line that closes the item which begins there."""
    closing = (indent + '}', indent + '};')
    return next((it for it in range(first, len(lines)) if lines[it].rstrip() in closing), len(lines) - 1)


def function_at(folder, file, offset):
    """The function in which an offset of a file lies, or None."""
    text = (folder / file).read_text(encoding='utf-8')
    if not file.startswith('src/'):
        return None
    lines, at, owner, found = text.split('\n'), text.count('\n', 0, offset), '', None
    for number, line in enumerate(lines[: at + 1]):
        begins, ends = IMPL.match(line), line.startswith('}')
        function = FUNCTION.match(line)
        if begins:
            owner = owner_of(begins[1])
        elif ends:
            owner = ''
        if function:
            last = last_line_of(lines, number, function[1])
            found = Function(folder.name, module_of(folder.name, file), owner if function[1] else '', function[2], file, number + 1, last + 1)
    return found if found and at < found.last_line else None
