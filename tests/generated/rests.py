"""What is left of a pattern behind the bytes that it has read, as expressions over bytes.

An expression is a number. `SHAPES` has the tuple of each: ('none',), ('empty',), ('bytes', bits),
('look', kind), ('then', first, second), ('either', a set of expressions), ('times', body, least,
most or None). Equal expressions have one number.
"""

import functools
from byte_sets import WORD, sequences

SHAPES, NUMBERS = [], {}
WORDS = {code for low, high in WORD for code in range(low, high + 1)}


def expression(*shape):
    if shape not in NUMBERS:
        NUMBERS[shape] = len(SHAPES)
        SHAPES.append(shape)
    return NUMBERS[shape]


NONE, EMPTY = expression('none'), expression('empty')


def then(first, second):
    if NONE in (first, second):
        return NONE
    if first == EMPTY or second == EMPTY:
        return second if first == EMPTY else first
    if SHAPES[first][0] == 'then':
        return then(SHAPES[first][1], then(SHAPES[first][2], second))
    return expression('then', first, second)


def either(choices):
    flat = set()
    for choice in choices:
        flat |= SHAPES[choice][1] if SHAPES[choice][0] == 'either' else {choice}
    flat.discard(NONE)
    return NONE if not flat else flat.pop() if len(flat) == 1 else expression('either', frozenset(flat))


def times(body, least, most):
    if most == 0 or body == EMPTY:
        return EMPTY
    return body if (least, most) == (1, 1) else expression('times', body, least, most)


def one_of(low, high):
    return expression('bytes', (1 << high + 1) - (1 << low))


@functools.cache
def whole(tree):
    """The expression of a tree."""
    kind = tree[0]
    if kind == 'empty':
        return EMPTY
    if kind == 'literal':
        return sequence([one_of(byte, byte) for byte in tree[1]])
    if kind == 'class':
        if tree[2]:
            return either(sequence([one_of(*part) for part in one]) for one in sequences(tree[1]))
        return expression('bytes', sum((1 << high + 1) - (1 << low) for low, high in tree[1])) if tree[1] else NONE
    if kind == 'look':
        return expression(*tree)
    if kind == 'repetition':
        return times(whole(tree[4]), tree[1], tree[2])
    if kind == 'capture':
        return whole(tree[1])
    return sequence([whole(part) for part in tree[1]]) if kind == 'concatenation' else either(whole(part) for part in tree[1])


def sequence(parts):
    out = EMPTY
    for part in reversed(parts):
        out = then(part, out)
    return out


def holds(kind, before, behind):
    """Whether a look holds between two bytes, None standing for the input's start or end."""
    line = kind.startswith('line')
    if 'boundary' in kind:
        return ((before in WORDS) != (behind in WORDS)) == (kind == 'word boundary')
    if kind.endswith('CRLF'):
        if 'start' in kind:
            return before in (None, 10) or before == 13 and behind != 10
        return behind in (None, 13) or behind == 10 and before != 13
    side = before if 'start' in kind else behind
    return side is None or line and side == 10


@functools.cache
def looks(number):
    """Whether an expression has a look in it."""
    shape = SHAPES[number]
    inside = {'then': shape[1:], 'either': shape[-1], 'times': shape[1:2]}.get(shape[0], ())
    return shape[0] == 'look' or any(looks(part) for part in inside)


@functools.cache
def ends(number, before, behind):
    """Whether an expression matches no byte between these two bytes."""
    shape = SHAPES[number]
    if shape[0] == 'look':
        return holds(shape[1], before, behind)
    if shape[0] == 'then':
        return ends(shape[1], before, behind) and ends(shape[2], before, behind)
    if shape[0] == 'either':
        return any(ends(part, before, behind) for part in shape[1])
    if shape[0] == 'times':
        return shape[2] == 0 or ends(shape[1], before, behind)
    return shape[0] == 'empty'


@functools.cache
def rest(number, before, byte):
    """What is left behind this byte, where the other one was read before it."""
    shape = SHAPES[number]
    if shape[0] == 'bytes':
        return EMPTY if shape[1] >> byte & 1 else NONE
    if shape[0] == 'then':
        left = then(rest(shape[1], before, byte), shape[2])
        return either([left, rest(shape[2], before, byte)]) if ends(shape[1], before, byte) else left
    if shape[0] == 'either':
        return either(rest(part, before, byte) for part in shape[1])
    if shape[0] == 'times':
        return times_rest(shape, before, byte)
    return NONE


def times_rest(shape, before, byte):
    """Behind a byte of a repetition. Turns that match nothing can stand before the one that reads
    the byte."""
    _, body, least, most = shape
    turn, left = rest(body, before, byte), []
    for empty in range(least + 1 if ends(body, before, byte) else 1):
        if most is None or most > empty:
            left.append(then(turn, times(body, max(least - 1 - empty, 0), None if most is None else most - 1 - empty)))
    return either(left)


def bits_of(number, met):
    """Adds the byte sets of an expression to `met`."""
    shape = SHAPES[number]
    if shape[0] == 'bytes':
        met.add(shape[1])
    for part in {'then': shape[1:], 'either': shape[-1], 'times': shape[1:2]}.get(shape[0], ()):
        bits_of(part, met)
