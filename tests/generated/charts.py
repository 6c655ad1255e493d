"""Reads a chart back, and finds whether it is one of the least graph of some leaves, looks and
all."""

import re
from matching import labelled, letter, refined, shown_text, state_lines
from rests import NONE
from trees import has_empty_class

NODE = re.compile(r'n(\d+)\["State (\d+)(?:<br>(early|late)\((\d+)\))?"\]')
EDGE = re.compile(r'en(\d+)n(\d+)\{"(.*)"\}')
TEXTS = {shown_text(letter(byte)): byte for byte in range(256)}
# A state without matches, from which nothing leads on.
DEAD = 'dead'


class Wrong(Exception):
    """What is wrong with a chart."""


def need(fits, what):
    if not fits:
        raise Wrong(what)
    return fits


def bytes_of(text):
    """The bytes of a label."""
    found = []
    for part in text.split('<br>'):
        ends = [(low, part[len(low) + 3:] or low) for low in TEXTS if part == low or part.startswith(low + '..=')]
        ends = [(TEXTS[low], TEXTS[high]) for low, high in ends if high in TEXTS]
        need(len(ends) == 1 and ends[0][0] <= ends[0][1], f'the label {text}')
        found += range(ends[0][0], ends[0][1] + 1)
    return found


class Chart:
    """A chart: for each state its early mark, its late one where that is shown, the state after
    each byte, and the one after the end."""

    def __init__(self, lines):
        self.early, self.late, self.edges, self.end = [], [], [], []
        for line in lines[1:]:
            node, edge = NODE.fullmatch(line), EDGE.fullmatch(line)
            if node:
                need(node[1] == node[2] == str(len(self.early)), f'the state {line}')
                leaf = int(node[4]) if node[3] else None
                self.early.append(leaf if node[3] == 'early' else None)
                self.late.append(leaf if node[3] == 'late' else None)
                self.edges.append({})
                self.end.append(None)
            elif edge:
                state, target = int(edge[1]), int(edge[2])
                need(state == len(self.edges) - 1, f'the edge {line}')
                if edge[3] == 'EOI':
                    self.end[state] = target
                else:
                    self.edges[state].update((byte, target) for byte in bytes_of(edge[3]))
        need(lines == self.lines(), 'the order or form of the lines')

    def lines(self):
        """The lines of a chart with these states: the edges of a state by their targets, then that
        of the end."""
        lines = ['flowchart TB']
        for state, edges in enumerate(self.edges):
            early, late, targets = self.early[state], self.late[state], {}
            mark = f'<br>early({early})' if early is not None else f'<br>late({late})' if late is not None else ''
            for byte in sorted(edges):
                targets.setdefault(edges[byte], []).append(byte)
            end = [(self.end[state], 'EOI')] if self.end[state] is not None else []
            lines += state_lines(state, mark, labelled(targets) + end)
        return lines

    def order(self):
        """The states by their first visit, breadth first, by ascending bytes and then the end."""
        order = [0]
        for state in order:
            targets = [self.edges[state][byte] for byte in sorted(self.edges[state])] + [self.end[state]]
            order += [target for at, target in enumerate(targets) if target is not None and target not in order + targets[:at]]
        return order

    def count_blocks(self, marks):
        """The number of blocks of states that no bytes tell apart, where states have these
        marks."""
        def signs(state, block):
            edges, end = self.edges[state], self.end[state]
            return end is not None and block[end], *((byte, block[edges[byte]]) for byte in sorted(edges))
        return len(set(refined(dict(enumerate(marks)), signs).values()))


class Comparison:
    """A chart beside what the leaves have left after any bytes."""

    def __init__(self, chart, matching, trees):
        self.chart, self.matching = chart, matching
        # For each state of the chart the marks with which it is entered where these are new, and
        # where they stood there before.
        self.needed, self.free, self.unmarked = {}, {}, {0}
        # For each state the leaf in front of each byte and of the end.
        self.rows = {DEAD: {None: None}, **{
            state: {byte: best[0] if best else None for byte, best in found.items()} or {None: None} for state, found in matching.matches.items()}}
        # The sets of leaves whose match some edge marks anew where nothing more can match; None
        # where a class without members hides that.
        self.last = None if any(map(has_empty_class, trees)) else {
            matching.listed[state][byte] for state in matching.live for byte in matching.letters + [None] if self.is_last(state, byte) and self.is_new(state, byte)}
        self.compare()

    def is_last(self, state, byte):
        """Whether nothing is left after a state and a byte, or the end."""
        return byte is None or all(number == NONE for number in self.matching.edges[state][byte][0])

    def is_new(self, state, byte):
        """Whether a leaf matches at a state in front of a byte that does not match there whatever
        comes next."""
        mark = self.rows[state].get(byte)
        return mark is not None and mark != self.early(state)

    def early(self, state):
        """The leaf that matches at a state whatever comes next, or None."""
        marks = set(self.rows[state].values())
        return marks.pop() if len(marks) == 1 else None

    def compare(self):
        """Follows chart and leaves side by side, and then compares the states of the chart with one
        another."""
        ahead, met = [(0, self.matching.start)], set()
        while ahead:
            number, state = ahead.pop()
            if (number, state) not in met:
                met.add((number, state))
                need(self.chart.early[number] == self.early(state), f'the early mark of state {number}')
                ahead += self.targets(number, state)
        states = range(len(self.chart.early))
        need({number for number, _ in met} == set(states), 'a state that nothing leads to')
        need(self.chart.order() == list(states), 'the order of the states')
        marks = [(self.chart.early[number], self.late(number)) for number in states]
        for number, mark in enumerate(marks):
            need(number == 0 or mark != (None, None) or self.chart.edges[number] or self.chart.end[number], f'state {number} is of no use')
        need(self.chart.count_blocks(marks) == len(marks), 'some states are alike')

    def targets(self, number, state):
        """Where the bytes and the end lead from a state. There is an edge where it is of use, or
        where the same leaves' match is marked elsewhere."""
        known, found = {}, []
        for byte in [*range(256), None]:
            first = byte if byte is None else self.matching.first[byte]
            if first not in known:
                known[first] = self.edge(state, first)
            after, wanted, *mark = known[first]
            target = self.chart.end[number] if byte is None else self.chart.edges[number].get(byte)
            need(wanted is None or (target is not None) == wanted, f'the edge of state {number} by {byte}')
            if target is not None:
                found.append((target, after))
                self.enter(target, *mark)
        return found

    def edge(self, state, first):
        """What is left behind a state and a byte, or the end; whether an edge has to be there, or
        None where it may; the leaf that matches, and whether it is new."""
        after = DEAD if first is None or state == DEAD else self.matching.edges[state][first]
        after = after if after in self.matching.live else DEAD
        mark, is_new = self.rows[state].get(first), self.is_new(state, first)
        wanted = is_new or after != DEAD
        if mark is not None and not wanted:
            wanted = self.matching.listed[state][first] in self.last if self.last is not None and self.is_last(state, first) else None
        return after, wanted, mark, is_new

    def enter(self, target, mark, is_new):
        """Keeps with which mark a state is entered."""
        if mark is None:
            self.unmarked.add(target)
        else:
            (self.needed if is_new else self.free).setdefault(target, set()).add(mark)

    def late(self, number):
        """The late mark of a state, which some edge needs and all allow."""
        marks = self.needed.get(number, set())
        need(len(marks) < 2 and not (marks and number in self.unmarked), f'the late mark of state {number}')
        need(not marks or self.free.get(number, marks) == marks, f'the late mark of state {number}')
        late = min(marks, default=None)
        need(self.chart.early[number] is not None or self.chart.late[number] == late, f'the late mark of state {number}')
        return late


def judge_chart(lines, matching, trees):
    """What is wrong with a chart of the leaves of these trees, or None."""
    try:
        Comparison(Chart(lines), matching, trees)
    except Wrong as wrong:
        return str(wrong)
    return None
