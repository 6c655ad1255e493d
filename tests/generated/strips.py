"""Makes sources, strips each with the plain reader, and compares that with what the program's
`strip` prints; and so for the sources that stand in the repository. Of what is left all must be
left again. A source that is no enum must be refused with the fault that the reader finds.

The word is the program's path. The last line has the counts.
"""

import glob
import os
import sys
from random import Random
from asking import asked, compare_all
from enums import Unread
from faults import Faults
from sources import SourceMaker
from stripped import stripped
from tokens import Lexical

SOURCES = 600
# The share of pieces that are wrong, by turns.
WRONG = [0, 0.1, 0.25, 0, 0.5]
# Where the repository has sources, and how many at least.
ROOT = os.path.join(os.path.dirname(os.path.abspath(__file__)), '..', '..')
FOLDERS = ['tests/compiled_rust/sources', 'tests/expected_rust', 'tests/memory/logos', 'bench/lexer/rules', 'docs/guide', 'crates/logos_program/data']
FILES = 43


def wanted_of(source):
    """Returns the status, the output and the complaint that the reader wants, and what is left of
    the source, or None."""
    faults = Faults()
    try:
        left = stripped(source)
        return (0, left + '\n', ''), left
    except Lexical as fault:
        faults.add('Lexical', (fault.start, fault.end), fault.kind)
    except Unread as fault:
        faults.add(fault.code, fault.place)
    return (1, '', ''.join(line + '\n' for line in faults.lines())), None


def differences(program, name, source):
    """Returns how many comparisons were made of a source, and those in which the program answers
    otherwise."""
    wanted, left = wanted_of(source)
    texts = {name: source} if left is None else {name: source, f'what is left of {name}': left}
    wrong = []
    for what, text in texts.items():
        status, *outputs = asked(program, ['strip', 'source'], {'source': text.encode()})
        found = status, *(it.decode() for it in outputs)
        if found != wanted:
            wrong.append(f'{what}: {found}, wanted {wanted}\n{text}')
    return len(texts), wrong


def sources_of_repository():
    """Yields the sources that stand in the repository, with their paths."""
    for folder in FOLDERS:
        for path in sorted(glob.glob(f'{ROOT}/{folder}/*.rs')):
            with open(path, encoding='utf-8', newline='') as file:
                yield os.path.relpath(path, ROOT), file.read()


def made_sources():
    """Yields the sources that are made, with their seeds."""
    for seed in range(SOURCES):
        yield f'seed {seed}', SourceMaker(Random(seed), WRONG[seed % len(WRONG)], seed).source()


def main(program):
    """Compares all, prints the differences and the counts, and returns the status."""
    kept = list(sources_of_repository())
    if len(kept) < FILES:
        print(f'strips: {len(kept)} sources in {", ".join(FOLDERS)}, wanted at least {FILES}\n0 passed, 1 failed')
        return 1
    return compare_all('strips', lambda pair: differences(program, *pair), [*kept, *made_sources()])


if __name__ == '__main__':
    sys.exit(main(os.path.abspath(sys.argv[1])))
