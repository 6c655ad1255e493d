#!/usr/bin/env python3
"""Writes the lexers and inputs of the test of steps: those of some seeds of tests/generated, and
longer inputs made of the same.

  python3 tests/steps/sources.py LOGOS FOLDER

A source that `logos` refuses is left out, as is one without variants. FOLDER gets `lexers.rs`, with
a module for each source and a macro that names them all, and NAME.source and NAME.0, NAME.1 .. for
each. What the lexers have to find is not written: the program compares two of them."""

import os
import re
import subprocess
import sys
from random import Random

sys.dont_write_bytecode = True
HERE = os.path.dirname(os.path.realpath(__file__))
sys.path.insert(0, os.path.join(HERE, '../generated'))
from small_sets import SmallSetMaker, inputs_of_patterns, inputs_of_words

# As in tests/generated: the seeds from `WORDS` on make sets of words, the others of patterns.
SEEDS, WORDS, ALONE = [*range(1000, 1260), *range(2000, 2100)], 2000, 6
# The bytes of the longer input, which has more than a lexer needs to look ahead by itself.
LONG = 18_000
DERIVE = '#[derive(::logos::Logos, Clone, Copy)]'


def is_accepted(logos, folder, source):
    """Whether `logos` accepts a source."""
    path = os.path.join(folder, 'asked')
    with open(path, 'w', encoding='utf8') as out:
        out.write(source)
    return subprocess.run([logos, 'mermaid', path], stdout=subprocess.DEVNULL, stderr=subprocess.DEVNULL).returncode == 0


def made(seed):
    """The source of a seed, whether it reads text, and its inputs."""
    random = Random(seed)
    maker = SmallSetMaker(random, seed)
    if seed >= WORDS:
        return maker.words(), True, inputs_of_words(random, ALONE), random
    source = maker.patterns()
    is_text = 'utf8 = true' in source
    return source, is_text, inputs_of_patterns(random, ALONE, is_text), random


def long_input(inputs, random):
    """Parts of the inputs in a row, cut at lines and blanks."""
    parts, out = re.findall(rb'[^\n ]*[\n ]?', b'\n'.join(inputs)), b''
    while len(out) < LONG:
        from_ = random.randrange(len(parts))
        out += b''.join(parts[from_:from_ + random.randint(1, 40)])
    return out


def main(logos, folder):
    lexers, names = [], []
    for seed in SEEDS:
        source, is_text, inputs, random = made(seed)
        if ' A' not in source or not is_accepted(logos, folder, source):
            continue
        name = f'l{seed}'
        with open(f'{folder}/{name}.source', 'w', encoding='utf8') as out:
            out.write(source)
        for number, text in enumerate([*inputs, long_input(inputs, random)]):
            with open(f'{folder}/{name}.{number}', 'wb') as out:
                out.write(text.decode('utf8', 'ignore').encode() if is_text else text)
        lexers.append(f'pub mod {name} {{\n{DERIVE}\n{source.replace("enum T", "pub enum T", 1)}\n}}\n')
        names.append(f'    $each!({name}, {int("skip " in source)});\n')
    with open(f'{folder}/lexers.rs', 'w', encoding='utf8') as out:
        out.write(''.join(lexers) + 'macro_rules! each_lexer {\n    ($each:ident) => {\n' + ''.join(names) + '    };\n}\n')
    print(len(names))


if __name__ == '__main__':
    main(*sys.argv[1:])
