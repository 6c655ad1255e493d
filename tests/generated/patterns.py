"""Reads a pattern's text into a tree.

Trees are tuples: ('empty',), ('literal', bytes), ('class', ranges, of_characters), ('look', kind),
('capture', body), ('repetition', least, most or None, greedy, body), ('concatenation', parts),
('alternation', branches).
"""

import re
from collections import Counter
from byte_sets import BYTES, CHARACTERS, DIGITS, NAMED, SPACE, WHITE, WORD, common, folded, of_category, united, without

EMPTY = ('empty',)
ESCAPABLE = set(map(chr, range(128))) - set('<>0123456789ABCDEFGHIJKLMNOPQRSTUVWXYZabcdefghijklmnopqrstuvwxyz')
CONTROLS = {'a': 7, 'f': 12, 't': 9, 'n': 10, 'r': 13, 'v': 11}
COUNT = re.compile(r'\{([0-9]+)(,?)([0-9]*)\}')
FLAGS = re.compile(r'\(\?([imsUuR]*)(-[imsUuR]+)?([:)])')
NAME = re.compile(r'\(\?P?<([^\W\d]\w*)>')


PROPERTY = re.compile(r'\\([pP])(?:\{([A-Za-z]+)\}|([A-Za-z]))')
LOOKS = ['start', 'end', 'line start', 'line end', 'line start CRLF', 'line end CRLF', 'word boundary', 'no word boundary']
# All forms of looks and classes. Perl's classes are met with the flag `u` and without it.
FORMS = [
    *LOOKS, '\\A', '\\z', '.', '. with R', '. with s', '. in bytes', 'range', '[^', '[[', '&&', '--', '~~', 'first ]', 'first -', 'last -', 'folded class', 'folded character',
    *(f'[:{sign}{name}:]' for name in NAMED for sign in ('', '^') if not sign or name in ('alpha', 'space', 'digit')),
    *(f'\\{kind}{where}' for kind in 'dDsSwW' for where in (' in characters', ' in bytes')), '\\p', '\\P', '\\x', '\\x{', '\\u', '\\u{', '\\U', 'byte', 'byte in a bracket',
]
# How often each form was met.
MET = Counter()


class Faulty(Exception):
    """A text that is no pattern."""


def one_character(tree):
    """The code of a literal of one character, or None."""
    try:
        text = tree[1].decode() if tree[0] == 'literal' else ''
    except UnicodeDecodeError:
        return None
    return ord(text) if len(text) == 1 else None


def class_of(ranges, of_characters):
    ranges = united(ranges)
    if len(ranges) == 1 and ranges[0][0] == ranges[0][1]:
        code = ranges[0][0]
        return ('literal', chr(code).encode() if of_characters else bytes([code]))
    return ('class', ranges, of_characters)


def look(kind):
    MET[kind] += 1
    return ('look', kind)


def concatenation(parts):
    out = []
    for part in parts:
        for piece in part[1] if part[0] == 'concatenation' else [part]:
            if piece[0] == 'literal' and out and out[-1][0] == 'literal':
                out[-1] = ('literal', out[-1][1] + piece[1])
            elif piece != EMPTY:
                out.append(piece)
    return EMPTY if not out else out[0] if len(out) == 1 else ('concatenation', tuple(out))


def alternation(branches):
    out = [piece for branch in branches for piece in (branch[1] if branch[0] == 'alternation' else [branch])]
    if len(out) == 1:
        return out[0]
    for of_characters in (True, False):
        ranges = []
        for branch in out:
            if branch[0] == 'class' and branch[2] == of_characters:
                ranges.append(branch[1])
            elif of_characters and one_character(branch) is not None:
                ranges.append(((one_character(branch),) * 2,))
            elif not of_characters and branch[0] == 'literal' and len(branch[1]) == 1:
                ranges.append(((branch[1][0],) * 2,))
        if len(ranges) == len(out):
            return class_of([part for one in ranges for part in one], of_characters)
    return ('alternation', tuple(out))


def is_byteless(tree):
    """Whether a tree can match no byte at all."""
    inside = {'repetition': tree[-1:], 'capture': tree[1:], 'concatenation': tree[-1], 'alternation': tree[-1]}.get(tree[0])
    return tree[0] in ('empty', 'look') or inside is not None and all(is_byteless(part) for part in inside)


def repetition(least, most, greedy, body):
    if most == 0:
        return EMPTY
    if is_byteless(body):
        least, most = min(least, 1), 1
    return body if (least, most) == (1, 1) else ('repetition', least, most, greedy, body)


class PatternReader:
    """Reads a text from the left. `flags` are those that are on."""

    def __init__(self, text, unicode, ignores_case):
        self.text, self.at, self.names = text, 0, set()
        self.flags = {flag for flag, is_on in (('u', unicode), ('i', ignores_case)) if is_on}

    def next(self, text):
        """Takes this text, where it comes next."""
        found = self.text.startswith(text, self.at)
        self.at += len(text) if found else 0
        return found

    def need(self, fits):
        if not fits:
            raise Faulty(self.at)
        return fits

    def match(self, expression):
        found = expression.match(self.text, self.at)
        self.at = found.end() if found else self.at
        return found

    def whole(self):
        tree = self.alternation()
        self.need(self.at == len(self.text))
        return tree

    def alternation(self):
        """All branches up to the end of the group around them. Flags that are set hold up to
        there."""
        kept, branches = set(self.flags), [self.branch()]
        while self.next('|'):
            branches.append(self.branch())
        self.flags = kept
        return alternation(branches)

    def branch(self):
        parts = []
        while self.at < len(self.text) and self.text[self.at] not in '|)':
            if self.text.startswith('(?', self.at) and self.setting():
                self.need(self.text[self.at:self.at + 1] not in ('*', '+', '?', '{'))
                continue
            part = self.atom()
            while self.text[self.at:self.at + 1] in ('*', '+', '?', '{'):
                part = self.operator(part)
            parts.append(part)
        return concatenation(parts)

    def setting(self):
        """Takes a flag setting, where one comes next."""
        found = FLAGS.match(self.text, self.at)
        if not found or found[3] != ')':
            return False
        self.set_flags(found)
        self.at = found.end()
        return True

    def set_flags(self, found):
        on, off = found[1], (found[2] or '')[1:]
        self.need(on + off or found[3] == ':')
        self.need(len(set(on + off)) == len(on + off))
        self.flags = self.flags.union(on) - set(off)

    def operator(self, body):
        count = COUNT.match(self.text, self.at)
        if count:
            least = int(count[1])
            most = int(count[3]) if count[3] else None if count[2] else least
            self.need(max(least, most or 0) < 2 ** 32 and (most is None or least <= most) and (count[2] or not count[3]))
            self.at = count.end()
        else:
            least, most = self.need({'*': (0, None), '+': (1, None), '?': (0, 1)}.get(self.text[self.at]))
            self.at += 1
        lazy = self.next('?')
        return repetition(least, most, lazy == ('U' in self.flags), body)

    def atom(self):
        text, unicode = self.text, 'u' in self.flags
        if text[self.at] == '(':
            return self.group()
        if text[self.at] == '[':
            self.at += 1
            return class_of(self.bracket(), unicode)
        if text[self.at] == '\\':
            return self.escape()
        sign = text[self.at]
        self.need(sign not in '*+?{')
        self.at += 1
        if sign == '.':
            MET.update({'.': 1, '. with R': 'R' in self.flags, '. with s': 's' in self.flags, '. in bytes': not unicode})
            out = () if 's' in self.flags else ((10, 10), (13, 13)) if 'R' in self.flags else ((10, 10),)
            return class_of(without(CHARACTERS if unicode else BYTES, out), unicode)
        if sign in '^$':
            lines = 'm' in self.flags
            return look(('line ' if lines else '') + ('start' if sign == '^' else 'end') + (' CRLF' * (lines and 'R' in self.flags)))
        return self.literal(ord(sign))

    def literal(self, code):
        """The tree of a character, bare or escaped."""
        unicode = 'u' in self.flags
        if 'i' in self.flags and (unicode or code < 128):
            MET['folded character'] += 1
            return class_of(folded(((code, code),), unicode), unicode)
        return ('literal', chr(code).encode())

    def group(self):
        kept, found = set(self.flags), self.match(FLAGS)
        if found:
            self.set_flags(found)
            tree = self.alternation()
        else:
            name = self.match(NAME)
            if name:
                self.need(name[1] not in self.names)
                self.names.add(name[1])
            else:
                self.next('(')
                self.need(not self.text.startswith('?', self.at))
            tree = ('capture', self.alternation())
        self.need(self.next(')'))
        self.flags = kept
        return tree

    def escape(self):
        unicode = 'u' in self.flags
        for sign, kind in (('\\A', 'start'), ('\\z', 'end')):
            if self.next(sign):
                MET[sign] += 1
                return look(kind)
        if self.text[self.at + 1:self.at + 2] in ('b', 'B'):
            self.need(not unicode and self.text[self.at + 2:self.at + 3] != '{')
            self.at += 2
            return look('word boundary' if self.text[self.at - 1] == 'b' else 'no word boundary')
        kind = self.text[self.at + 1:self.at + 2]
        if kind and kind in 'dDsSwWpP':
            return class_of(self.perl(), unicode)
        code, is_byte = self.escaped()
        if is_byte and code > 127:
            MET['byte'] += 1
            return ('literal', bytes([code]))
        return self.literal(code)

    def perl(self):
        """A class of digits, white space or word characters, or of characters with a property; or
        its complement."""
        kind, unicode = self.text[self.at + 1], 'u' in self.flags
        if kind in 'pP':
            return self.property()
        self.at += 2
        MET[f'\\{kind} in ' + ('characters' if unicode else 'bytes')] += 1
        if unicode:
            ranges = {'d': of_category('Nd'), 's': WHITE, 'w': united(of_category('L') + of_category('M') + of_category('N') + of_category('Pc'))}[kind.lower()]
            return without(CHARACTERS, ranges) if kind.isupper() else ranges
        ranges = {'d': DIGITS, 's': SPACE, 'w': WORD}[kind.lower()]
        return without(BYTES, ranges) if kind.isupper() else ranges

    def property(self):
        """The characters of a general category, or the others. Other properties are refused here,
        and none is made."""
        found = self.need(self.match(PROPERTY))
        self.need('u' in self.flags)
        ranges = self.need(of_category(found[2] or found[3]))
        MET['\\' + found[1]] += 1
        return without(CHARACTERS, ranges) if found[1] == 'P' else ranges

    def escaped(self):
        """The code of an escape, and whether it is that of a byte."""
        self.need(self.next('\\') and self.at < len(self.text))
        sign = self.text[self.at]
        self.at += 1
        if sign in CONTROLS:
            return CONTROLS[sign], False
        if sign in 'xuU':
            digits = self.match(re.compile(r'\{([0-9a-fA-F]+)\}|([0-9a-fA-F]{%d})' % {'x': 2, 'u': 4, 'U': 8}[sign]))
            self.need(digits)
            code = int(digits[1] or digits[2], 16)
            self.need(code < 0x110000 and not 0xD800 <= code < 0xE000)
            MET['\\' + sign + '{' * (digits[1] is not None)] += 1
            return code, 'u' not in self.flags and sign == 'x' and digits[2] is not None
        self.need(sign in ESCAPABLE)
        return ord(sign), False

    def bracket(self):
        """The set of a bracket whose opening is taken."""
        unicode, negated, out, operation, operand = 'u' in self.flags, self.next('^'), None, None, []
        while self.next('-'):
            operand.append((45, 45))
            MET['first -'] += 1
        if not operand and self.next(']'):
            operand.append((93, 93))
            MET['first ]'] += 1
        MET['[^'] += negated
        while not self.next(']'):
            self.need(self.at < len(self.text))
            sign = self.text[self.at:self.at + 2]
            if sign in ('&&', '--', '~~'):
                out, operation, operand = self.operate(out, operation, operand), sign, []
                MET[sign] += 1
                self.at += 2
            else:
                operand += self.item()
        out = self.operate(out, operation, operand)
        return without(CHARACTERS if unicode else BYTES, out) if negated else out

    def operate(self, out, operation, operand):
        ranges = united(operand)
        if 'i' in self.flags:
            ranges = folded(ranges, 'u' in self.flags)
            MET['folded class'] += 1
        if operation is None:
            return ranges
        if operation == '&&':
            return common(out, ranges)
        return without(out, ranges) if operation == '--' else united(without(out, ranges) + without(ranges, out))

    def item(self):
        """The ranges of one item of a bracket."""
        named = self.match(re.compile(r'\[:(\^?)(%s):\]' % '|'.join(NAMED)))
        if named:
            MET[named[0]] += 1
            ranges = folded(NAMED[named[2]], 'u' in self.flags) if 'i' in self.flags else NAMED[named[2]]
            return list(without(CHARACTERS if 'u' in self.flags else BYTES, ranges) if named[1] else ranges)
        if self.text[self.at] == '[':
            self.at += 1
            MET['[['] += 1
            return list(self.bracket())
        if self.text[self.at] == '\\' and self.text[self.at + 1:self.at + 2] in tuple('dDsSwWpP'):
            return list(self.perl())
        low = self.member()
        high = low
        if self.text[self.at:self.at + 1] == '-' and self.text[self.at + 1:self.at + 2] not in (']', '-', ''):
            self.at += 1
            self.need(self.text[self.at] != '[' and self.text[self.at:self.at + 2] not in tuple('\\' + kind for kind in 'dDsSwWpP'))
            high = self.member()
            MET['range'] += 1
        self.need(low <= high)
        return [(low, high)]

    def member(self):
        """The code of a character in a bracket, or of a byte."""
        if self.text[self.at] == '\\':
            code, is_byte = self.escaped()
        else:
            code, is_byte = ord(self.text[self.at]), False
            self.at += 1
            MET['last -'] += code == 45 and self.text[self.at:self.at + 1] == ']'
        MET['byte in a bracket'] += is_byte and code > 127
        self.need(code < 128 or is_byte or 'u' in self.flags)
        return code


def compiled(text, unicode, ignores_case):
    """The tree that a text spells. Raises `Faulty`."""
    return PatternReader(text, unicode, ignores_case).whole()


def subpatterns_of(text):
    """The places and names of the subpatterns that a text names."""
    return list(re.finditer(r'\(\?&([0-9a-zA-Z_]+)\)', text))
