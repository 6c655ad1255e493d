"""Sets of characters and bytes as sorted lists of ranges, and the sequences of bytes that encode
characters."""

import functools
import itertools
import unicodedata

CHARACTERS = ((0, 0xD7FF), (0xE000, 0x10FFFF))
BYTES = ((0, 255),)
WHITE = ((9, 13), (32, 32), (0x85, 0x85), (0xA0, 0xA0), (0x1680, 0x1680), (0x2000, 0x200A), (0x2028, 0x2029), (0x202F, 0x202F),
         (0x205F, 0x205F), (0x3000, 0x3000))
DIGITS, WORD, SPACE = ((48, 57),), ((48, 57), (65, 90), (95, 95), (97, 122)), ((9, 13), (32, 32))
NAMED = {
    'alnum': ((48, 57), (65, 90), (97, 122)), 'alpha': ((65, 90), (97, 122)), 'ascii': ((0, 127),), 'blank': ((9, 9), (32, 32)),
    'cntrl': ((0, 31), (127, 127)), 'digit': DIGITS, 'graph': ((33, 126),), 'lower': ((97, 122),), 'print': ((32, 126),),
    'punct': ((33, 47), (58, 64), (91, 96), (123, 126)), 'space': SPACE, 'upper': ((65, 90),), 'word': WORD,
    'xdigit': ((48, 57), (65, 70), (97, 102)),
}


def united(ranges):
    """The ranges that cover what these cover, as few as there can be. Surrogates count for no
    gap."""
    out = []
    for low, high in sorted(ranges):
        if out and (low <= out[-1][1] + 1 or (out[-1][1], low) == (0xD7FF, 0xE000)):
            out[-1] = (out[-1][0], max(out[-1][1], high))
        else:
            out.append((low, high))
    return tuple(out)


def common(one, other):
    return united((max(a, c), min(b, d)) for a, b in one for c, d in other if max(a, c) <= min(b, d))


def without(one, other):
    """What is in the first set and not in the second."""
    left, others = [], sorted(other)
    for low, high in one:
        for start, end in others:
            if start > high:
                break
            if low < start:
                left.append((low, start - 1))
            low = max(low, end + 1)
        if low <= high:
            left.append((low, high))
    return united(left)


CATEGORIES = ('L', 'Lu', 'Ll', 'M', 'N', 'Nd', 'P', 'Pc', 'S', 'Z')

# Characters that fold as others do in the Unicode of the program, and are not assigned yet in that
# of older Pythons.
LATER = {0x1DF95: 0xDF}


@functools.cache
def partners():
    """For each character that shares a simple folding with others, all these."""
    groups = {}
    for code in range(0x1E944):
        if not 0xD800 <= code < 0xE000:
            sign = chr(code)
            single = [form for form in (sign.casefold(), sign.lower(), sign) if len(form) == 1]
            groups.setdefault(single[0], []).append(code)
    for code, other in LATER.items():
        group = next(group for group in groups.values() if other in group)
        if code not in group:
            group.append(code)
    return {code: tuple(group) for group in groups.values() if len(group) > 1 for code in group}


def folded(ranges, unicode):
    """The set with every character that shares a simple folding with a member; without `unicode`
    ASCII letters alone fold."""
    if unicode:
        more = [(other, other) for low, high in ranges if high - low < 0x3000 for code in range(low, high + 1)
                for other in partners().get(code, ())]
        more += [(other, other) for low, high in ranges if high - low >= 0x3000 for code, group in partners().items()
                 if low <= code <= high for other in group]
    else:
        more = [(part[0] ^ 32, part[1] ^ 32) for part in common(ranges, NAMED['alpha'])]
    return united(list(ranges) + more)


@functools.cache
def runs_of_categories():
    """The general category of each character, as runs of characters: the category, the first and
    the last."""
    runs, first = [], 0
    for name, run in itertools.groupby(map(unicodedata.category, map(chr, range(0x110000)))):
        count = sum(1 for _ in run)
        runs.append((name, first, first + count - 1))
        first += count
    return runs


@functools.cache
def of_category(name):
    """The characters of a general category, or of all that begin with this letter. Python may know
    an older Unicode, so sources take from it what lies between some old characters alone."""
    if name not in CATEGORIES:
        return ()
    return united((low, high) for category, low, high in runs_of_categories() if category.startswith(name) and category != 'Cs')


def sequences(ranges):
    """The sequences of byte ranges that encode the characters of a set."""
    out = []
    for low, high in ranges:
        for first, last in ((0, 0x7F), (0x80, 0x7FF), (0x800, 0xD7FF), (0xE000, 0xFFFF), (0x10000, 0x10FFFF)):
            if max(low, first) <= min(high, last):
                out += halved(chr(max(low, first)).encode(), chr(min(high, last)).encode())
    return out


def halved(low, high):
    """The sequences between two encodings of one length: split until all but one byte of both are
    alike or go all the way."""
    if len(low) == 1 or all(a == 0x80 and b == 0xBF for a, b in zip(low[1:], high[1:])):
        return [tuple(zip(low, high))]
    if low[0] == high[0]:
        return [((low[0], low[0]),) + rest for rest in halved(low[1:], high[1:])]
    least, most = b'\x80' * (len(low) - 1), b'\xbf' * (len(low) - 1)
    out, first, last = [], low[0], high[0]
    if low[1:] != least:
        out += [((first, first),) + rest for rest in halved(low[1:], most)]
        first += 1
    behind = []
    if high[1:] != most:
        behind = [((last, last),) + rest for rest in halved(least, high[1:])]
        last -= 1
    return out + ([((first, last),) + tuple(zip(least, most))] if first <= last else []) + behind
