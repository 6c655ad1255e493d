"""What leaves match: their ambiguous sets, the items of an input, and the chart of the least graph
where no pattern looks.

`charts.py` compares a chart where some pattern looks.
"""

from rests import NONE, WORDS, bits_of, ends, looks, rest, whole

MOST_STATES = 4000


class TooLarge(Exception):
    """The leaves have more states than are followed here."""


def kind_of(byte):
    return 10 if byte == 10 else 13 if byte == 13 else ord('a') if byte in WORDS else 0


def classes_of(numbers):
    """The bytes in classes that no pattern tells apart: for each byte the first of its class."""
    met = set()
    for number in numbers:
        bits_of(number, met)
    looking = any(looks(number) for number in numbers)
    firsts = {}
    return [firsts.setdefault((tuple(bits >> byte & 1 for bits in met), looking and kind_of(byte)), byte) for byte in range(256)]


class Matching:
    """All that the leaves have left behind any bytes. A state is what is left of each leaf, and the
    kind of the byte before it.

    `edges` has for each state the state behind each first byte of a class.
    """

    def __init__(self, trees, priorities):
        self.priorities = priorities
        numbers = tuple(whole(tree) for tree in trees)
        self.start, self.looking = (numbers, None), any(map(looks, numbers))
        self.first = classes_of(numbers)
        self.letters = sorted(set(self.first))
        self.edges, ahead = {}, [self.start]
        while ahead:
            state = ahead.pop()
            if state in self.edges:
                continue
            self.edges[state] = {byte: self.step(state, byte) for byte in self.letters}
            ahead += self.edges[state].values()
            if len(self.edges) > MOST_STATES:
                raise TooLarge()
        self.listed = {state: self.listed_of(state) for state in self.edges}
        self.matches = {state: self.matches_of(state) for state in self.edges}
        self.live = self.live_states()

    def step(self, state, byte):
        numbers = tuple([rest(number, state[1], byte) if number != NONE else NONE for number in state[0]])
        return numbers, kind_of(byte) if self.looking and any(map(looks, numbers)) else 0

    def listed_of(self, state):
        """The leaves that match at a state in front of each first byte and of the end."""
        numbers, before = state
        if before is None:
            return {}
        there = [(leaf, number) for leaf, number in enumerate(numbers) if number != NONE]
        if not any(looks(number) for _, number in there):
            # (what comes next says nothing)
            return dict.fromkeys(self.letters + [None], tuple(leaf for leaf, number in there if ends(number, before, None)))
        return {behind: tuple([leaf for leaf, number in there if ends(number, before, behind)]) for behind in self.letters + [None]}

    def matches_of(self, state):
        """The best of these leaves."""
        best = {}
        for listed in set(self.listed[state].values()):
            top = max((self.priorities[leaf] for leaf in listed), default=0)
            best[listed] = tuple(leaf for leaf in listed if self.priorities[leaf] == top)
        return {behind: best[listed] for behind, listed in self.listed[state].items()}

    def live_states(self):
        """The states from which some bytes lead to a match."""
        into = {}
        for state, edges in self.edges.items():
            for target in edges.values():
                into.setdefault(target, []).append(state)
        live, ahead = set(), [state for state, found in self.matches.items() if any(found.values())]
        while ahead:
            state = ahead.pop()
            if state not in live:
                live.add(state)
                ahead += into.get(state, [])
        return live

    def ambiguous(self):
        """The sets of leaves that are the best of some text together."""
        return sorted({best for found in self.matches.values() for best in found.values() if len(best) > 1})

    def attempt(self, text, at, is_utf8):
        """The leaf and the end of the item that begins at a place, or None and the end of an
        error."""
        state, stop, found = self.start, at, None
        while stop < len(text):
            state = self.edges[state][self.first[text[stop]]]
            if state not in self.live:
                break
            stop += 1
            best = self.matches[state][self.first[text[stop]] if stop < len(text) else None]
            found = (best[0], stop) if best else found
        if found:
            return found
        stop = max(stop, at + 1)
        while is_utf8 and stop < len(text) and text[stop] & 0xC0 == 0x80:
            stop += 1
        return None, stop

    def items(self, text, is_utf8, skips):
        """The lines of the items of an input, where a leaf of `skips` gives none."""
        lines, at = [], 0
        while at < len(text):
            leaf, to = self.attempt(text, at, is_utf8)
            if leaf not in skips:
                lines.append(f'error {at}..{to}' if leaf is None else f'token {leaf} {at}..{to}')
            at = to
        return lines

    def blocks(self):
        """The number of each live state's block, where states are alike that no bytes tell
        apart."""
        marks = {state: self.matches[state].get(None, ()) for state in self.live | {self.start}}
        return refined(marks, lambda state, block: (block[it] if it in self.live else None for it in self.edges[state].values()))

    def chart(self):
        """The lines of the chart. No pattern may have a look."""
        block, order, states = self.blocks(), {}, []
        order[block[self.start]] = 0
        states.append(self.start)
        lines, at = ['flowchart TB'], 0
        while at < len(states):
            state, targets = states[at], {}
            for byte in range(256):
                target = self.edges[state][self.first[byte]]
                if target in self.live:
                    if block[target] not in order:
                        order[block[target]] = len(states)
                        states.append(target)
                    targets.setdefault(order[block[target]], []).append(byte)
            best = self.matches[state].get(None, ())
            lines += state_lines(at, f'<br>early({best[0]})' if best else '', labelled(targets))
            at += 1
        return lines


def refined(marks, signs_of):
    """The number of each state's block, where states are alike that have the same mark, and the
    same signs by the blocks of other states."""
    block, count = marks, 0
    while count != len(set(block.values())):
        count = len(set(block.values()))
        signs = {state: (block[state], *signs_of(state, block)) for state in block}
        numbers = {sign: number for number, sign in enumerate(dict.fromkeys(signs.values()))}
        block = {state: numbers[sign] for state, sign in signs.items()}
    return block


def state_lines(number, mark, edges):
    """The lines of a state with a mark: those of the state, and of each edge, by its target and its
    text."""
    lines = [f'n{number}["State {number}{mark}"]', f'style n{number} stroke:{"#00C853" if mark else "#000000"}']
    for target, text in edges:
        edge = f'en{number}n{target}'
        lines += [f'{edge}{{"{text}"}}', f'style {edge} stroke:#000000', f'n{number}-->{edge}', f'{edge}-->n{target}']
    return lines


def labelled(targets):
    """The edges to targets, each with the bytes that lead there."""
    return [(target, label(targets[target])) for target in sorted(targets)]


def label(letters):
    """The text of a class of bytes in a chart."""
    ranges = []
    for byte in letters:
        if ranges and ranges[-1][1] == byte - 1:
            ranges[-1][1] = byte
        else:
            ranges.append([byte, byte])
    texts = [letter(low) + ('' if low == high else '..=' + letter(high)) for low, high in ranges]
    return '<br>'.join(shown_text(text) for text in texts)


def shown_text(text):
    return text.replace('\\', '\\\\').replace('"', '&quot')


def letter(byte):
    short = {9: '\\t', 10: '\\n', 13: '\\r', 34: '\\"', 39: "\\'", 92: '\\\\'}
    return short.get(byte) or (chr(byte) if 32 <= byte < 127 else f'\\x{byte:02x}')
