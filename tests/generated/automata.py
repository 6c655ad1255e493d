"""Writes rows of calls: the leaves that the automata of small sets of patterns list after some
bytes, as the plain reader has it; and that the bytes that their graphs give for each two states
tell these apart."""

from main import PATTERNS, made
from patterns import Faulty, compiled
from small_sets import words

LETTERS = ['a', 'b', '\n', '\r', '\xC3', '\xA9']
SETS = 350


def written(text):
    """Bytes in the notation of rows."""
    return ''.join(sign if ' ' < sign < '\x7f' else f'⟨{ord(sign):X}⟩' if sign < '\x7f' else f'\\x{ord(sign):X};' for sign in text) or '⟨×0⟩'


def listed(matching, text, at_end):
    """The leaves that match all bytes of a text but the last, or all of them at the end."""
    state = matching.start
    read, last = (text, None) if at_end else (text[:-1], matching.first[text[-1]] if text else None)
    for byte in read:
        state = matching.edges[state][matching.first[byte]]
    return ''.join(f'{leaf} ' for leaf in matching.listed[state].get(last, ())) + ';' if read or text else ';'


def is_alike(leaf, text):
    """Whether a text spells the tree of a leaf where the flag `u` is on."""
    try:
        return compiled(text, True, False) == leaf.tree
    except Faulty:
        return False


def rules_of(reading):
    """The patterns with their priorities as a row gives them, or None where one has no such
    text."""
    rules = []
    for leaf in reading.leaves:
        text = leaf.source[leaf.source.index('"') + 1:leaf.source.rindex('"')]
        text = text if leaf.source.startswith('r') else f'(?-u:{text})'
        if not is_alike(leaf, text) or ' ' in text[:1] or '¦' in text:
            return None
        rules.append(f'{leaf.priority} {text}'.replace('⟨', '⟨27E8⟩'))
    return ' ¦ '.join(rules)


def main():
    texts = words(LETTERS, 3)
    asked = ' ¦ '.join(map(written, texts))
    rows, count = {'Dfa::iter_matches': [], 'Dfa::next_eoi_state': [], 'Graph::telling': []}, 0
    for seed in PATTERNS[:SETS]:
        _, reading, _ = made(seed)
        rules = None if reading.faults.list else rules_of(reading)
        if rules is None:
            continue
        count += 1
        for call, at_end in (('Dfa::iter_matches', False), ('Dfa::next_eoi_state', True)):
            found = ''.join(listed(reading.matching, text.encode('latin1'), at_end) for text in texts)
            rows[call].append(f'{rules} ‖ {asked} => {found}')
        rows['Graph::telling'].append(f'{rules} => ' + ('all' if any(reading.matching.live) else '0'))
    assert count > SETS // 2, 'too few sets'
    for call, lines in rows.items():
        print(f'== {call}')
        print('\n'.join(lines))


if __name__ == '__main__':
    main()
