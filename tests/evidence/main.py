"""Asks the program of evidence about more than a hundred small sets of patterns, in both modes, and
compares its answers with those of a plain reader.

  python3 tests/evidence/main.py PROGRAM [SEED ..]

Of each leaf the reader finds the first of the shortest inputs whose first item it is, and of those
on which it loses a match; of each set of ambiguous leaves and of each leaf alone, where they meet;
and all matches from each place of an input. The program must give the same texts, and none where
there are none. Where two lexers are compared, each text of up to three letters is tried on both:
the program must give the first on which they differ, or a longer one on which they do. The inputs
that it gives for all edges must differ and be inputs of the mode, and together they must pass each
edge between the states of the least automaton that the reader finds, as far as inputs pass it.

Seeds ask for those sets alone. By hand it is asked about 2,000 sets, `$(seq 1000 2999)`, in about
three minutes of one processor."""

import os
import subprocess
import sys
from concurrent.futures import ProcessPoolExecutor
from os import path
from random import Random

HERE = path.dirname(path.realpath(__file__))
sys.path.insert(0, path.join(path.dirname(HERE), 'generated'))
from automata import rules_of
from byte_sets import partners, runs_of_categories
from earlier import earlier, keep
from main import PATTERNS, WORDS, made
from matching import Matching, TooLarge
from patterns import Faulty, compiled
from reader import Evidence, first_difference

# So long are the texts with which a comparison is made anew.
MOST = 3


def hexadecimal(text):
    return '-' if text is None else 'x' + text.hex()


def read_rules(rules):
    """The trees and the priorities of rules."""
    pairs = [rule.split(' ', 1) for rule in rules.split(' ¦ ')]
    return [compiled(text.replace('⟨27E8⟩', '⟨'), True, False) for _, text in pairs], [int(priority) for priority, _ in pairs]


def meetings(evidence):
    """The answers about where leaves meet."""
    alone = [(leaf,) for leaf in range(len(evidence.matching.priorities))]
    return ''.join(f' M,{",".join(map(str, leaves))} {hexadecimal(evidence.meeting(leaves))}' for leaves in evidence.matching.ambiguous() + alone)


def leaves_found(evidence):
    return ''.join(f' E {hexadecimal(evidence.example(leaf))} L {hexadecimal(evidence.loses(leaf))}' for leaf in range(len(evidence.matching.priorities)))


def matches_found(evidence, text):
    lines = ''
    for start in range(len(text)):
        found = evidence.matches(text, start)
        lines += f' F{start}' + ''.join(f' {leaf},{end},{priority}' for leaf, end, priority in found)
        if found:
            end = max(end for _, end, _ in found)
            top = max(priority for _, at, priority in found if at == end)
            lines += f' W {next(leaf for leaf, at, priority in found if at == end and priority == top)},{end}'
    return lines


def changed(rules, seed):
    """Other rules: the same in other words, or with one that is changed."""
    pairs = [rule.split(' ', 1) for rule in rules.split(' ¦ ')]
    number = seed % len(pairs)
    if seed % 3 == 0:
        return ' ¦ '.join(f'{priority} (?:{text}|{text})' for priority, text in pairs)
    if seed % 3 == 1:
        pairs[number][1] = f'(?:{pairs[number][1]})a?'
    else:
        pairs[number][0] = str(int(pairs[number][0]) + 1)
    return ' ¦ '.join(' '.join(pair) for pair in pairs)


def questions(seed):
    """The lines that are asked about the rules of a seed; the wanted answers, up to the inputs; and
    the lexers whose inputs and comparison are judged."""
    try:
        _, reading, inputs = made(seed)
    except TooLarge:
        return []
    rules = None if any(code not in ('Disambiguation',) for code in codes(reading)) else rules_of(reading)
    if rules is None or '⟨' in rules:
        return []
    asked = []
    for mode in ('TEXT', 'BYTES'):
        evidence = Evidence(reading.matching, mode == 'TEXT')
        front = meetings(evidence)
        text = Random(seed).choice(inputs)[:12] if inputs else b'ab'
        asked.append((f'{mode}\t{rules}\t@{text.hex()}', front + matches_found(evidence, text), None, None))
        if reading.matching.ambiguous():
            asked.append((f'{mode}\t{rules}', front, None, None))
            continue
        other, twin = changed(rules, seed), None
        try:
            matching = Matching(*read_rules(other))
            twin = None if matching.ambiguous() or matching.live == set() else Evidence(matching, mode == 'TEXT')
        except (Faulty, TooLarge):
            pass
        asked.append((f'{mode}\t{rules}' + (f'\t{other}' if twin else ''), front + leaves_found(evidence), evidence, twin))
    return asked


def codes(reading):
    return {code for code, _, _ in reading.faults.list}


def is_right_difference(told, one, other):
    """Whether the answer of a comparison is right."""
    shorter = first_difference(one, other, MOST)
    if shorter is not None:
        return told == hexadecimal(shorter)
    if told == '-':
        return True
    text = bytes.fromhex(told[1:])
    return len(text) > MOST and one.first(text) != other.first(text)


def is_right(answer, wanted, one, other):
    """Whether an answer is the wanted one; with a lexer, whether its inputs cover it, and with
    another, whether the comparison is right."""
    if one is None:
        return answer == wanted
    if other is not None:
        answer, mark, told = answer.rpartition(' C ')
        if not mark or not is_right_difference(told, one, other):
            return False
    front, mark, texts = answer.partition(' I')
    return front == wanted and bool(mark) and one.are_covering([bytes.fromhex(word[1:]) for word in texts.split()])


def judge(job):
    """How many answers about a seed are right, the first that is not, and the words of all. Answers
    that an earlier test found to be right are right."""
    program, seed = job
    kept = earlier('evidence', seed)
    if kept and answered(program, kept[0]) == kept[1]:
        return kept[2]
    asked = questions(seed)
    text = '\n'.join(line for line, *_ in asked)
    answers = answered(program, text)
    found = judged(seed, asked, answers)
    if not found[1]:
        keep('evidence', seed, (text, answers, found))
    return found


def answered(program, text):
    """The lines that the program answers, if it is asked anything."""
    if not text:
        return []
    return subprocess.run([program], input=text.encode(), capture_output=True, check=False).stdout.decode().split('\n')[:-1]


def judged(seed, asked, answers):
    """The same for answers that are there."""
    if len(answers) != len(asked):
        return 0, f'{seed}: {len(answers)} answers to {len(asked)} lines', []
    met = [word for answer in answers for word in answer.split()]
    for answer, (line, wanted, one, other) in zip(answers, asked):
        if not is_right(answer, wanted, one, other):
            return 0, f'{seed}: {line!r}\nwanted {wanted}\nfound  {answer}', []
    return len(asked), None, met


def main():
    program, seeds = sys.argv[1], [int(word) for word in sys.argv[2:]] or [*PATTERNS[::7], *WORDS[::8]]
    good, bad, met = 0, 0, {}
    # What is looked up once for all is there before the workers are.
    partners()
    runs_of_categories()
    with ProcessPoolExecutor(len(os.sched_getaffinity(0))) as pool:
        for count, fault, words in pool.map(judge, [(program, seed) for seed in seeds], chunksize=8):
            good += count
            bad += fault is not None
            for sign in 'ELMC':
                for at, word in enumerate(words[:-1]):
                    if word[:1] == sign and not word[1:2].isalnum():
                        key = sign + ('-' if words[at + 1] == '-' else 'x')
                        met[key] = met.get(key, 0) + 1
            if fault and bad < 4:
                print(fault)
    print('evidence: ' + ', '.join(f'{key} {count}' for key, count in sorted(met.items())))
    print(f'{good} passed, {bad} failed')
    sys.exit(1 if bad or not good else 0)


if __name__ == '__main__':
    main()
