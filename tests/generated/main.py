"""Makes sources, reads each with the plain reader, runs the program on it, and compares what both
find.

  python3 tests/generated/main.py LOGOS CALLS [SEED ..]

`logos` has to print the faults, the charts and the items that the reader finds, and the program of
calls the same items of inputs that are cut into pieces at random. Where a pattern looks, the reader
follows the printed chart byte by byte beside what is left of the patterns. At the first difference
the script fails, with the seed and the source; it fails too where some kind of fault was met in no
source, or some form of look or class in too few sources that are accepted. What the text of a
pattern's fault says of its place and kind is left open.

Seeds ask for those sources alone. Without them the program of calls answers the rows of `ROWS`,
too.
"""

import os
import re
import subprocess
import sys
from collections import Counter
from concurrent.futures import ProcessPoolExecutor
from itertools import zip_longest
from random import Random

sys.dont_write_bytecode = True
from asking import asked
from byte_sets import partners, runs_of_categories
from charts import judge_chart
from earlier import HERE, earlier, keep
from faults import texts
from inputs import make_input
from matching import TooLarge
from patterns import FORMS, LOOKS, MET
from reading import Reading
from small_sets import SmallSetMaker, inputs_of_patterns, inputs_of_words
from sources import SourceMaker
from tables import table

SOURCES, INPUTS = 600, 2
# Seeds from here on make small sets of patterns, and then of words; so many of their inputs stand
# alone.
PATTERNS, WORDS, ALONE = range(1000, 1700), range(2000, 2200), 8
# So many charts are met of each look at least, and so many accepted sources of each form.
CHARTS, ACCEPTED = 20, 2
# The share of pieces that are wrong, by turns.
WRONG = [0, 0.1, 0.25, 0, 0.5]


# The scripts that write rows for the program of calls.
ROWS = ('changed', 'automata', 'expressions')

# In a quick test, what was asked for a source: program or calls, the words, the files, the input,
# and the answer.
ASKED = []


class Difference(Exception):
    """What the program answered in place of what the reader found."""


def answers_as_before(programs, answers):
    """Whether the programs answer all that was asked for a source in the same way again."""
    return all(asked(programs[number], words, files, given) == wanted for number, words, files, given, wanted in answers)


def run(program, files, *words):
    """The status, the lines of output and those of complaints."""
    found = asked(program, words, files)
    ASKED.append((0, words, files, None, found))
    return split(found)


def split(found):
    return found[0], found[1].decode().split('\n'), found[2].decode().split('\n')


def is_alike(line, found):
    """Whether a line is the wanted one. What `Regex` says behind its place is left open."""
    return line == found or ' Regex: ' in line and found.startswith(line)


def expect(what, wanted, found):
    """Raises where the answer is another one, with the first lines that differ."""
    if wanted[0] != found[0]:
        raise Difference(f'{what}: status {found[0]} in place of {wanted[0]}, with {found[1][:1]} and {found[2]}\nwanted {wanted[2]}')
    for lines, others in zip(wanted[1:], found[1:]):
        for line, other in zip_longest(lines, others):
            if line is None or other is None or not is_alike(line, other):
                raise Difference(f'{what}\nwanted {line}\nfound  {other}')


def ended(lines):
    """Lines as they stand in a text where each has its end."""
    return list(lines) + ['']


def compare(program, source, reading, inputs):
    """Compares all that the program says of a source and these inputs, which it lexes in both
    shapes by turns. Gives the number of comparisons."""
    files, faults = {'source': source.encode()}, reading.lines()
    if faults:
        expect('mermaid', (1, [''], ended(faults)), run(program, files, 'mermaid', 'source'))
        return 1
    compare_chart(reading, run(program, files, 'mermaid', 'source'))
    for number, text in enumerate(inputs):
        items, wanted = reading.items(text), None
        if items is None:
            wanted = 1, [''], [f'NotUtf8 {valid_up_to(text)}', '']
        shape = ['--shape', 'tailcall'] if number % 2 else []
        expect(f'lex of {text}', wanted or (0, ended(items), ['']), run(program, {**files, 'input': text}, 'lex', 'source', 'input', *shape))
    return len(inputs) + 1


def compare_chart(reading, found):
    """Compares the chart: where no pattern looks it is the one that the reader draws, and else one
    that fits all that the leaves match."""
    if not reading.looks():
        return expect('mermaid', (0, ended(reading.matching.chart()), ['']), found)
    expect('mermaid', (0, found[1], ['']), found)
    wrong = judge_chart(found[1][:-1], reading.matching, [leaf.tree for leaf in reading.leaves])
    if wrong:
        raise Difference(f'mermaid: {wrong}\n' + '\n'.join(found[1]))
    return None


def stream(calls, source, reading, inputs, random):
    """Compares the items of the inputs as streams, each cut into pieces at random, of which some
    cannot be read the first time. Gives how many there are."""
    requests, wanted = [], []
    for text in inputs:
        sizes = [random.choice([0, 1, 1, 2, 3, 5, 8, 40, 300]) for _ in range(random.randint(1, 12))] + [random.randint(1, 9)]
        words = len(source.encode()), len(text), len(text) + random.randint(1, 9), ','.join(map(str, sizes))
        requests.append(' '.join(map(str, words)).encode() + b'\n' + source.encode() + text)
        valid = valid_up_to(text) if reading.utf8 else len(text)
        wanted += [*reading.items(text[:valid]), f'{"end" if valid == len(text) else "NotUtf8"} {valid}']
    found = asked(calls, ('streams',), {}, b''.join(requests))
    ASKED.append((1, ('streams',), {}, b''.join(requests), found))
    expect(f'streams of {inputs}', (0, ended(wanted), ['']), split(found))
    return len(inputs)


def valid_up_to(text):
    try:
        text.decode()
    except UnicodeDecodeError as fault:
        return fault.start
    return len(text)


def made_small(seed):
    """The small set of a seed, what the reader finds in it, and its inputs."""
    random = Random(seed)
    for _ in range(12):
        maker = SmallSetMaker(random, seed)
        source = maker.words() if seed in WORDS else maker.patterns()
        MET.clear()
        try:
            reading = Reading(source)
        except TooLarge:
            continue
        if seed in WORDS:
            return source, reading, inputs_of_words(random, ALONE)
        return source, reading, inputs_of_patterns(random, ALONE, reading.utf8)
    raise TooLarge(f'seed {seed}')


def made(seed):
    """The source of a seed, what the reader finds in it, and inputs. One that is meant to be right
    is made anew while it is not."""
    if seed >= PATTERNS.start:
        return made_small(seed)
    random = Random(seed)
    wrong = WRONG[seed % len(WRONG)]
    for left in range(11, -1, -1):
        source = SourceMaker(random, wrong, seed).source()
        MET.clear()
        try:
            reading = Reading(source)
        except TooLarge:
            continue
        if wrong or not reading.faults.list or not left:
            return source, reading, [make_input(reading.leaves, random, reading.utf8) for _ in range(0 if reading.faults.list else INPUTS)]
    raise TooLarge(f'seed {seed}')


def judge(program, calls, seed):
    """What came of a source: its faults' codes, the numbers of comparisons and of streams, the
    forms of an accepted one, and the difference or None. Where the programs answer as they did in
    an earlier test, it is what it was then."""
    kept = earlier('generated', seed)
    if kept and answers_as_before((program, calls), kept[0]):
        return kept[1]
    ASKED.clear()
    source, reading, inputs = made(seed)
    # (for edits)
    keep('made', seed, (None if reading.faults.list else (source, reading.utf8, inputs),))
    forms = [] if reading.faults.list else [form for form in FORMS if MET[form]]
    try:
        compared = compare(program, source, reading, inputs)
        streamed = 0 if reading.faults.list else stream(calls, source, reading, inputs, Random(seed))
        if not reading.faults.list and not streamed:
            raise Difference('no input is read as a stream')
    except Difference as difference:
        return [], 0, 0, [], f'seed {seed}: {difference}\n{source}'
    found = [code for code, _, _ in reading.faults.list], compared, streamed, forms, None
    keep('generated', seed, (ASKED, found))
    return found


def judge_kept(program):
    """Compares the program with the lines that are written down, and the reader with them too."""
    for source, faults in map(dict.values, table('kept').KEPT):
        found = run(program, {'source': source.encode()}, 'mermaid', 'source')
        expect(source, (1, [''], ended(faults)), found)
        expect(f'{source} as the reader has it', (1, [''], ended(Reading(source).lines())), found)


def answer_rows(calls, name):
    """Has the program of calls answer the rows of a script. Gives how many passed and failed."""
    rows = earlier('rows', name)
    if rows is None:
        rows = subprocess.run([sys.executable, f'{HERE}/{name}.py'], stdout=subprocess.PIPE, check=True).stdout
        keep('rows', name, rows)
    done = subprocess.run([calls], input=rows, stdout=subprocess.PIPE, check=False)
    lines = done.stdout.decode(errors='replace').split('\n')[:-1] or ['']
    counts = re.fullmatch(r'(\d+) passed, (\d+) failed', lines[-1])
    passed, failed = map(int, counts.groups()) if counts else (0, 0)
    if done.returncode == 0 and passed:
        print(f'generated: the rows of {name}.py are answered as the plain reader has it')
    else:
        print('\n'.join(lines[:20]), f'generated: some rows of {name}.py are not answered as the plain reader has it', sep='\n')
        failed += 1
    return passed, failed


def main(program, calls, seeds):
    """Compares all. Prints the counts, and gives the status."""
    counts = [judge_sources(program, calls, seeds)]
    if seeds == ALL and counts[0][0]:
        counts += [answer_rows(calls, name) for name in ROWS]
    passed, failed = map(sum, zip(*counts))
    print(f'{passed} passed, {failed} failed')
    return 1 if failed else 0


def judge_sources(program, calls, seeds):
    """Compares the sources of these seeds. Gives how many passed and failed."""
    try:
        judge_kept(program)
    except Difference as difference:
        print(f'generated: {difference}', file=sys.stderr)
        return 0, 1
    codes, forms, refused, accepted, compared, streamed = Counter(), Counter(), 0, 0, 0, 0
    # What is looked up once for all sources is there before the workers are.
    partners()
    runs_of_categories()
    with ProcessPoolExecutor(len(os.sched_getaffinity(0))) as workers:
        for found, comparisons, streams, met, difference in workers.map(judge, [program] * len(seeds), [calls] * len(seeds), seeds, chunksize=4):
            if difference:
                workers.shutdown(cancel_futures=True)
                print(f'generated: {difference}', file=sys.stderr)
                return 0, 1
            codes.update(found)
            forms.update(met)
            refused, accepted, compared, streamed = refused + bool(found), accepted + (not found), compared + comparisons, streamed + streams
    print('generated:', ', '.join(f'{code} {codes[code]}' for code in sorted(codes)))
    print('generated: accepted sources with', ', '.join(f'{form} {forms[form]}' for form in FORMS))
    missed = [code for code in (*texts.TEXTS, *texts.SHAPES) if code not in codes]
    missed += [form for form in FORMS if forms[form] < (CHARTS if form in LOOKS else ACCEPTED)]
    if missed and len(seeds) == len(ALL):
        print('generated: too few sources had', ', '.join(missed), file=sys.stderr)
        return 0, 1
    print(f'generated: {refused} sources are refused and {accepted} accepted as the plain reader has it, in {compared} comparisons')
    print(f'generated: the items of {streamed} streams that are cut into pieces are those of the whole, for each of the {accepted} sources')
    return refused + accepted + streamed, 0


ALL = [*range(SOURCES), *PATTERNS, *WORDS]

if __name__ == '__main__':
    sys.exit(main(os.path.realpath(sys.argv[1]), os.path.realpath(sys.argv[2]), [int(seed) for seed in sys.argv[3:]] or ALL))
