"""Makes whole Rust files of random items, has `logos_cli` expand them, and compares with the plain
reader: every byte outside of the enums that derive `Logos` stays, but for documentation and
attributes of the file itself, which become plain comments; each such enum gives way to the tokens
that the plain reader leaves of it, and to an implementation. The file as a whole has the tokens of
these parts: none runs on into the next one.

The word is the program's path. The last line has the counts.
"""

import os
import sys
from random import Random
from asking import asked, compare_all
from earlier import earlier, keep
from stripped import stripped
from tables import table
from tokens import Lexical, printed, tokenize

FILES = 240
SHAPES = ['tables', 'tailcall', 'state_machine']
GAPS = [' ', '\n', '\n\n', '\t', '\r\n', ' // line\n', ' /* block */ ', ' /* a /* b */ c */\n', '\n    ', '\n////\n', ' /**/ ']
# What stands first in a file, and what becomes of it.
FRONTS = [('', ''), ('//! One.\n', '// One.\n'), ('/*! Block\n lines */\n', '/* Block\n lines */\n'), ('#![allow(a)]\n', '/* #![allow(a)] */\n'),
          ('//!/ odd\n', '// / odd\n'), ('/*!*/ ', '/* */ '), ('/*!* x */', '/* * x */'), ('//!! y\n', '// ! y\n'),
          ('# /* b */ ! [c(\n"]",\n")")] // d\n', '/* # /* b */ ! [c(\n"]",\n")")] */ // d\n'), ('// plain\n', '// plain\n'), ('\ufeff', None)]
made_of = table('whole_files')


class FileMaker:
    """Makes one file: a list of texts that stay, with an enum between each two."""

    def __init__(self, seed):
        self.random = Random(seed)
        self.serial = 0

    def pick(self, choices):
        return self.random.choice(choices)

    def gap(self):
        return ''.join(self.pick(GAPS) for _ in range(self.random.randrange(1, 3)))

    def variant(self):
        """A variant with patterns that no other variant has."""
        self.serial += 1
        name = f'V{self.serial}'
        lines = [f'#[token("{name}"{self.pick(made_of.CALLBACKS)})]', f'#[regex(r"{name}(?:x|y)+"{self.pick(made_of.CALLBACKS)})]', '/// A variant.', '#[doc(hidden)]']
        chosen = [lines[0], *self.random.sample(lines[1:], self.random.randrange(3))]
        self.random.shuffle(chosen)
        field = self.pick(['', '', '(u8)', f' = {self.serial}'])
        ends = {line: '\n' if line.startswith('///') else self.pick(['\n', ' ', '\n    ', ' // why\n']) for line in chosen}
        return ''.join(line + end for line, end in ends.items()) + name + field

    def enum(self):
        attributes = self.random.sample(made_of.ATTRIBUTES, self.random.randrange(4)) + [f'#[derive({self.pick(made_of.DERIVES)})]']
        self.random.shuffle(attributes)
        head = ''.join(attribute + self.pick(['\n', ' \n', '\r\n', '\n    ']) for attribute in attributes)
        variants = ',\n    '.join(self.variant() for _ in range(self.random.randrange(1, 4)))
        self.serial += 1
        return f'{head}{self.pick(["", "pub ", "pub(crate) "])}enum E{self.serial} {{{self.pick(GAPS)}{variants}{self.pick(["", ",", ", // last" + chr(10)])}}}'

    def items(self, end):
        """Items that stay, with a mark that no expansion has at the front, and modules that are
        left and entered."""
        self.serial += 1
        text, depth = f'/* mark {self.serial} */', self.depth
        for _ in range(self.random.randrange(4)):
            text += self.gap() + self.pick(made_of.ITEMS)
        while depth and (end or self.random.random() < 0.4):
            text, depth = text + self.gap() + '}', depth - 1
        if not end and self.random.random() < 0.4:
            text, depth = f'{text}{self.gap()}pub mod m{self.serial} {{', depth + 1
        self.depth = depth
        return text + self.gap()

    def pieces(self):
        """The front with its plain form, and the texts with the enums between them."""
        self.depth = 0
        front = [self.pick(FRONTS) for _ in range(self.random.randrange(4))]
        if any(plain is None for _, plain in front):
            front = [(text, text) for text, plain in front if plain is None][:1]
        texts, enums = [self.items(False)], []
        for _ in range(self.random.randrange(1, 4)):
            enums.append(self.enum())
            texts.append(self.pick(['\n', ' ', '']) + self.items(False))
        texts[-1] += self.items(True)
        return ''.join(text for text, _ in front), ''.join(plain for _, plain in front), texts, enums


def imported(source, enum):
    """Says whether an enum derives `Logos` without a path, in a file that may import it."""
    if not any(path in source for path in ('::Logos', 'logos::{', '::*')):
        return False
    listed = printed(tokenize(enum)).split('derive (')[1].split(')')[0]
    return 'Logos' in [entry.strip() for entry in listed.split(',')]


def is_expansion(source, enum, text):
    """Says what is wrong with the text that stands for an enum, or nothing."""
    found, left = printed(tokenize(text)), stripped(enum)
    guard = printed(tokenize('#[rustfmt::skip]')) + ' '
    if found.startswith(guard) and not left.startswith(guard):
        found = found[len(guard):]
    if not found.startswith(left + ' '):
        return f'the enum has other tokens than {left}'
    found = found[len(left) + 1:]
    name = left.split('enum ')[1].split(' ')[0]
    imports = found.count(printed(tokenize('use self::Logos as _;')))
    if imports != imported(source, enum):
        return f'{imports} imports'
    lexer = found.find(printed(tokenize("impl < 's> ::logos::Logos< 's> for")) + f' {name} {{')
    if lexer < 0 or not found.endswith('}'):
        return f'no implementation for {name} at the end'
    if '{' in found[:lexer]:
        return 'another item before the implementation'
    return None


def have_equal_tokens(text, other):
    """Says whether two texts have equal tokens; one that cannot be read has none."""
    try:
        return printed(tokenize(text)) == printed(tokenize(other))
    except Lexical:
        return False


def differences(program, seed):
    """Returns how many pieces of a file were compared, and in which the program answers otherwise.
    In a quick test an answer that was right before is right."""
    front, plain, texts, enums = FileMaker(seed).pieces()
    shape = SHAPES[seed % len(SHAPES)]
    source = front + ''.join(text + enum for text, enum in zip(texts, [*enums, '']))
    found = asked(program, ['file.rs', '--shape', shape], {'file.rs': source.encode()})
    answer = source, *found
    kept = earlier('whole_files', seed)
    if kept and kept[0] == answer:
        return kept[1], []
    count, wrong = differences_of(seed, (front, plain, texts, enums), source, shape, found)
    if not wrong:
        keep('whole_files', seed, (answer, count))
    return count, wrong


def differences_of(seed, pieces, source, shape, found):
    """The same for an answer that is there."""
    front, plain, texts, enums = pieces
    status, out, err = found[0], found[1].decode(), found[2].decode()
    head = '' if front.startswith('\ufeff') else f'// @generated by logos_cli 0.1.0 from file.rs, --shape {shape}; do not edit\n'
    wrong = []
    # (there may be warnings)
    if status or 'error' in err:
        return 1, [f'seed {seed}: status {status}, {err}\n{source}']
    if not out.startswith(head + plain):
        return 1, [f'seed {seed}: the front is {out[:len(head + plain)]!r}, wanted {head + plain!r}']
    at = len(head + plain)
    apart = plain
    for number, text in enumerate(texts):
        found = out.find(text, at)
        if found < 0 or (number == 0 and found != at):
            return 1, [f'seed {seed}: this does not stay: {text!r}\n{source}']
        if number:
            what = is_expansion(source, enums[number - 1], out[at:found])
            wrong += [f'seed {seed}: {what}\n{enums[number - 1]}'] if what else []
            apart += f'\n{printed(tokenize(out[at:found]))}\n'
        apart += text
        at = found + len(text)
    if at != len(out):
        wrong.append(f'seed {seed}: the end is {out[at:]!r}')
    if not have_equal_tokens(out, apart):
        wrong.append(f'seed {seed}: the whole file has other tokens than its parts\n{source}')
    return 2 * len(texts) + 1, wrong


if __name__ == '__main__':
    PROGRAM = os.path.abspath(sys.argv[1])
    sys.exit(compare_all('whole_files', lambda seed: differences(PROGRAM, seed), range(FILES)))
