"""Finds evidence of a lexer in another way: it follows what is left of each pattern byte by byte.

A search goes breadth first over what is left of the patterns, with what has to follow for the bytes
to be UTF-8, and tries bytes in the order in which texts are to be chosen. So its answer is the
first of the shortest ones.
"""

from matching import refined
from rests import looks

PUNCTUATION = [byte for byte in range(32, 127) if not chr(byte).isalnum()]
ORDER = [*b'abcdefghijklmnopqrstuvwxyz', *b'ABCDEFGHIJKLMNOPQRSTUVWXYZ', *b'0123456789', *PUNCTUATION, *range(32), *range(127, 256)]
# The bytes that may follow a first byte of a character, and how many follow after that.
SECOND = {**{first: (0x80, 0xBF, 0) for first in range(0xC2, 0xE0)}, **{first: (0x80, 0xBF, 1) for first in range(0xE0, 0xF0)},
          **{first: (0x80, 0xBF, 2) for first in range(0xF0, 0xF5)},
          0xE0: (0xA0, 0xBF, 1), 0xED: (0x80, 0x9F, 1), 0xF0: (0x90, 0xBF, 2), 0xF4: (0x80, 0x8F, 2)}
WHOLE = None


def utf8_step(open_, byte):
    """What has to follow after one more byte, or False if it may not come."""
    if open_ is WHOLE:
        return WHOLE if byte < 0x80 else SECOND.get(byte, False)
    low, high, more = open_
    if not low <= byte <= high:
        return False
    return (0x80, 0xBF, more - 1) if more else WHOLE


def letters_of(*matchings):
    """One byte of each class that neither the patterns nor UTF-8 tell apart: the first in the
    order."""
    found = {}
    for byte in ORDER:
        sign = tuple(matching.first[byte] for matching in matchings) + (SECOND.get(byte), byte >> 4 if 0x80 <= byte < 0xC0 else byte < 0x80)
        found.setdefault(sign, byte)
    return list(found.values())


def search(start, letters, step, is_goal, utf8):
    """The first of the shortest inputs that lead to a goal, or None."""
    ahead, met = [(start, WHOLE, b'')], {(start, WHOLE)}
    for state, open_, text in ahead:
        if open_ is WHOLE and is_goal(state):
            return text
        for byte in letters:
            after = utf8_step(open_, byte) if utf8 else WHOLE
            if after is False:
                continue
            target = step(state, byte)
            if target is not None and (target, after) not in met:
                met.add((target, after))
                ahead.append((target, after, text + bytes([byte])))
    return None


def is_utf8(text):
    try:
        text.decode()
    except UnicodeDecodeError:
        return False
    return True


class Evidence:
    """What the leaves of a lexer find."""

    def __init__(self, matching, utf8):
        self.matching, self.utf8, self.letters = matching, utf8, letters_of(matching)

    def listed(self, state, byte):
        return self.matching.listed[state].get(byte, ())

    def best(self, state, byte):
        return self.matching.matches[state].get(byte, ())

    def next(self, state, byte):
        return self.matching.edges[state][self.matching.first[byte]]

    def example(self, leaf):
        """An input whose first item is a match of the leaf."""
        def last(won, best):
            return best[0] == leaf if best else won

        def step(at, byte):
            state, won = at
            return self.next(state, byte), last(won, self.best(state, self.matching.first[byte]))
        return search((self.matching.start, False), self.letters, step, lambda at: last(at[1], self.best(at[0], None)), self.utf8)

    def loses(self, leaf):
        """An input from whose beginning the leaf matches, and another one's match is found."""
        def after(state, met, winner, byte):
            best = self.best(state, byte)
            return met or leaf in self.listed(state, byte), best[0] if best else winner

        def step(at, byte):
            state, met, winner = at
            return (self.next(state, byte),) + after(state, met, winner, self.matching.first[byte])

        def is_goal(at):
            met, winner = after(*at, None)
            return met and winner != leaf
        return search((self.matching.start, False, None), self.letters, step, is_goal, self.utf8)

    def meeting(self, leaves):
        """An input that begins with a span of which these leaves have the match of highest
        priority."""
        def step(at, byte):
            state, met = at
            met = met or self.best(state, self.matching.first[byte]) == leaves
            return (self.matching.start if met else self.next(state, byte)), met
        return search((self.matching.start, False), self.letters, step, lambda at: at[1] or self.best(at[0], None) == leaves, self.utf8)

    def matches(self, text, start):
        """All matches from a place of an input, with their priorities, by their ends and leaves."""
        state, found = self.matching.start, []
        for end in range(start + 1, len(text) + 1):
            state = self.next(state, text[end - 1])
            follows = self.matching.first[text[end]] if end < len(text) else None
            found += [(leaf, end, self.matching.priorities[leaf]) for leaf in self.listed(state, follows)]
        return found

    def classes(self):
        """The number of each live state's class, where states are alike that no bytes
        distinguish."""
        letters = self.matching.letters
        marks = {state: tuple(self.best(state, byte) for byte in [*letters, None]) for state in self.matching.live | {self.matching.start}}
        return refined(marks, lambda state, block: (block.get(self.next(state, byte)) for byte in letters))

    def edges(self):
        """The edges between classes of states that inputs pass."""
        block, found = self.classes(), set()
        ahead, met = [(self.matching.start, WHOLE)], {(self.matching.start, WHOLE)}
        for state, open_ in ahead:
            for byte in self.letters:
                after, target = utf8_step(open_, byte) if self.utf8 else WHOLE, self.next(state, byte)
                if after is False or target not in self.matching.live:
                    continue
                found.add((block[state], block[target]))
                if (target, after) not in met:
                    met.add((target, after))
                    ahead.append((target, after))
        return found

    def passed(self, text):
        """The edges that an input passes."""
        block, state, found = self.classes(), self.matching.start, set()
        for byte in text:
            target = self.next(state, byte)
            if target not in self.matching.live:
                break
            found.add((block[state], block[target]))
            state = target
        return found

    def are_covering(self, texts):
        """Whether these are inputs that together pass each edge that inputs pass, and each passes a
        new one, where no pattern looks."""
        passed, looking = set(), any(looks(number) for number in self.matching.start[0])
        for text in texts:
            more = self.passed(text) - passed
            if not (more or looking) or self.utf8 and not is_utf8(text):
                return False
            passed |= more
        return passed == self.edges()

    def first(self, text):
        """The first item of an input that is not empty: the leaf and the end of a match, or None
        and the end of an error."""
        return self.matching.attempt(text, 0, self.utf8)


def texts(letters, utf8, length):
    """All inputs of a length over some bytes, in order."""
    found = [(b'', WHOLE)]
    for _ in range(length):
        steps = [(text + bytes([byte]), utf8_step(open_, byte) if utf8 else WHOLE) for text, open_ in found for byte in letters]
        found = [(text, open_) for text, open_ in steps if open_ is not False]
    return [text for text, open_ in found if open_ is WHOLE]


def first_difference(one, other, most):
    """The first of the shortest inputs up to a length at whose beginning two lexers find different
    things, or None."""
    letters = letters_of(one.matching, other.matching)
    for length in range(1, most + 1):
        for text in texts(letters, one.utf8, length):
            if one.first(text) != other.first(text):
                return text
    return None
