"""Edits inputs of the sources that tests/generated makes, and compares the items after each edit
with those of a lexer of the whole input.

  python3 tests/edits/main.py PROGRAM [SEED ..]

Each accepted source gets an input of more than two windows, made of the inputs that tests/generated
makes for it, and edits at random points: bytes that are put in, dropped and replaced, texts of its
leaves, whole or cut short, and in UTF-8 mode pieces of characters, after which the edit has to be
refused and the items have to be as they were. Half of the edits stand near the one before. Seeds
ask for those sources alone."""

import os
import sys
from concurrent.futures import ProcessPoolExecutor
from os import path
from random import Random

HERE = path.dirname(path.realpath(__file__))
sys.path.insert(0, path.join(path.dirname(HERE), 'generated'))
from asking import asked
from byte_sets import partners, runs_of_categories
from earlier import earlier, keep
from inputs import OTHER
from main import ALL, made
from matching import TooLarge

# An input has at least so many bytes, and so many edits are made of it.
BYTES, EDITS = 9000, 16


def text_of(inputs, random, is_utf8):
    """A long input of these."""
    text = b''
    while len(text) < BYTES:
        text += random.choice([*inputs, random.choice(OTHER)]) + random.choice([b'', b' ', b'\n'])
    return text.decode('utf8', 'ignore').encode() if is_utf8 else text


def is_text(text):
    try:
        text.decode()
    except UnicodeDecodeError:
        return False
    return True


def edits_of(text, inputs, random, is_utf8):
    """The lines of edits, and how many of them are refused."""
    lines, refused, near = [], 0, 0
    for _ in range(EDITS):
        start = near if random.random() < 0.5 else random.randrange(len(text) + 1)
        start = min(len(text), max(0, start + random.randint(-4, 4)))
        end = min(len(text), start + random.choice([0, 0, 1, 1, 2, 7, 60, 5000]))
        put = random.choice([b'', b'', random.choice(OTHER), random.choice(inputs or OTHER), random.choice(inputs or OTHER)[:3], bytes([random.randrange(128)])])
        lines.append(f'{start} {end} {put.hex()}')
        new = text[:start] + put + text[end:]
        if is_utf8 and not is_text(new):
            refused += 1
        else:
            text = new
        near = start
    return lines, refused


def questions(seed):
    """The source, the input, the lines of edits and how many of these are refused; or None where
    the source is refused."""
    kept = earlier('edits', seed)
    if not kept:
        kept = (made_edits(seed),)
        keep('edits', seed, kept)
    return kept[0]


def made_edits(seed):
    accepted = accepted_source(seed)
    if not accepted:
        return None
    source, is_utf8, inputs = accepted
    random = Random(seed)
    inputs = [text for text in inputs if text]
    text = text_of(inputs, random, is_utf8)
    return source, text, *edits_of(text, inputs, random, is_utf8)


def accepted_source(seed):
    """The source of a seed, whether it reads text, and its inputs; or None where it is refused. In
    a quick test `generated` leaves what it makes."""
    kept = earlier('made', seed)
    if kept:
        return kept[0]
    try:
        source, reading, inputs = made(seed)
    except TooLarge:
        return None
    return None if reading.faults.list else (source, reading.utf8, inputs)


def judge(program, seed):
    """Nothing where the program finds the same after each edit, or if the source is refused; else
    the difference."""
    asks = questions(seed)
    if not asks:
        return None, False
    source, text, lines, refused = asks
    files = {'source': source.encode(), 'input': text, 'edits': '\n'.join(lines).encode()}
    status, out, err = asked(program, list(files), files)
    wanted = f'{EDITS} the same, {refused} refused\n'
    if status or out.decode() != wanted:
        return f'seed {seed}: {out.decode()}{err.decode()}in place of {wanted}{source}', True
    return None, True


def main(program, seeds):
    partners()
    runs_of_categories()
    passed = 0
    with ProcessPoolExecutor(len(os.sched_getaffinity(0))) as workers:
        for difference, counts in workers.map(judge, [program] * len(seeds), seeds, chunksize=4):
            if difference:
                workers.shutdown(cancel_futures=True)
                print(f'edits: {difference}', file=sys.stderr)
                print(f'{passed} passed, 1 failed')
                return 1
            passed += counts
    print(f'edits: after {EDITS} edits of each input of {passed} sources the items are those of the whole input')
    print(f'{passed} passed, 0 failed')
    return 0


if __name__ == '__main__':
    sys.exit(main(sys.argv[1], [int(seed) for seed in sys.argv[2:]] or ALL))
