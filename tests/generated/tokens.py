"""Reads a source into trees of tokens with their places, one regular expression for each kind of
lexeme."""

import re
from itertools import accumulate

OPENING = {'(': ')', '[': ']', '{': '}'}
BLANKS = re.compile('[\t-\r \x85\u200e\u200f\u2028\u2029]+')
NAME = re.compile(r'(?:r#)?[^\W\d]\w*')
NUMBER = re.compile(r'0[xob]\w*|[0-9](?:\w|\.(?=[0-9])|(?<=[eE])[+-](?=[0-9]))*')
LITERAL_BEGINS = 'bcr"\'0123456789'
RAW = re.compile(r'([bc]?)r(#{0,255})"')
QUOTED = re.compile(r'([bc]?)"')
QUOTED_END = re.compile(r'(?:[^"\\]|\\.)*"', re.S)
LETTER_END = re.compile(r"(?:[^'\\]|\\.)*'", re.S)
PUNCTUATION = '~!@#$%^&*-=+|;:,<.>/?'
ESCAPE = re.compile(r'\\(?:x([0-9a-fA-F]{2})|u\{([0-9a-fA-F][0-9a-fA-F_]*)\}|([nrt0\\\'"])|(\r?\n)[ \t\n\r]*)')
SHORT = {'n': '\n', 'r': '\r', 't': '\t', '0': '\0', '\\': '\\', "'": "'", '"': '"'}


class Lexical(Exception):
    """A text that is no token: what is wrong, and the characters where it stands."""

    def __init__(self, kind, start, end):
        super().__init__(kind)
        self.kind, self.start, self.end = kind, start, end


class Tree:
    """A token, or a group with those inside it. Places are bytes of the source.

    `kind` is one of ident, punct, literal, doc, group. A punctuation is `alone` where no other
    follows directly. A literal has a `form`, and a string one its `value`: text or bytes. A
    documentation comment is a `line` or not, and `inner` or not.
    """

    def __init__(self, kind, text, start, end, **more):
        self.kind, self.text, self.start, self.end = kind, text, start, end
        self.__dict__.update(more)

    def is_lone(self, sign):
        return self.kind == 'punct' and self.text == sign and self.alone

    def is_punct(self, sign):
        return self.kind == 'punct' and self.text == sign

    def is_word(self, word):
        return self.kind == 'ident' and self.text == word

    def is_group(self, opening):
        return self.kind == 'group' and self.text == opening


def span(run):
    """The bytes from the first tree of a run to its last; 0..0 where it is empty."""
    return (run[0].start, run[-1].end) if run else (0, 0)


def comment_end(text, at):
    """The end of the comment that starts here, or None where none does. A line comment ends before
    its line's end."""
    if text[at] != '/':
        return None
    if text.startswith('//', at):
        end = text.find('\n', at)
        return len(text[at:].rstrip('\r')) + at if end < 0 else len(text[at:end].rstrip('\r')) + at
    if not text.startswith('/*', at):
        return None
    depth = 0
    for mark in re.compile(r'/\*|\*/').finditer(text, at):
        depth += 1 if mark[0] == '/*' else -1
        if depth == 0:
            return mark.end()
    raise Lexical('Unterminated', at, len(text))


def is_documentation(comment):
    """Whether a comment is a token: one of the outer or of the inner form."""
    return bool(re.match(r'///(?!/)|//!|/\*\*(?![*/])|/\*!', comment))


def value_of(body, form, start, end):
    """The value of what stands between quotes: escapes are read, and a line's end counts as LF."""
    out, at = [], 0
    while at < len(body):
        sign, code = body[at], None
        if sign == '\\':
            escape = ESCAPE.match(body, at)
            code, at = escape_code(escape, form), escape.end() if escape else at
            if code is None:
                raise Lexical('BadLiteral', start, end)
            out.append(code)
            continue
        if body.startswith('\r\n', at):
            at += 1
            sign = '\n'
        elif sign == '\r' or form in ('bytes', 'byte') and ord(sign) > 127:
            raise Lexical('BadLiteral', start, end)
        out.append(sign)
        at += 1
    text = ''.join(out)
    return text.encode('latin-1') if form in ('bytes', 'byte') else text


def escape_code(escape, form):
    """The text that an escape stands for, or None where the literal's form has no such escape."""
    if not escape:
        return None
    hexadecimal, scalar, short, line = escape.groups()
    if line is not None:
        return '' if form in ('str', 'bytes', 'cstr') else None
    if short is not None:
        return SHORT[short]
    if hexadecimal is not None:
        code = int(hexadecimal, 16)
        return chr(code) if code < 128 or form in ('bytes', 'byte', 'cstr') else None
    digits = scalar.replace('_', '')
    if form in ('bytes', 'byte') or len(digits) > 6 or int(digits, 16) > 0x10FFFF or 0xD800 <= int(digits, 16) < 0xE000:
        return None
    return chr(int(digits, 16))


def literal_at(text, at):
    """The literal that opens here, as its form, its value and its end without the suffix; None
    where none opens."""
    if text[at] not in LITERAL_BEGINS:
        return None
    forms = {'': 'str', 'b': 'bytes', 'c': 'cstr'}
    raw = RAW.match(text, at)
    if raw:
        end = text.find('"' + raw[2], raw.end())
        if end < 0:
            raise Lexical('Unterminated', at, len(text))
        body, form, whole = text[raw.end():end].replace('\r\n', '\n'), forms[raw[1]], end + 1 + len(raw[2])
        if '\r' in body or form == 'bytes' and not body.isascii():
            raise Lexical('BadLiteral', at, whole)
        return form, body.encode() if form == 'bytes' else body, whole
    quoted = QUOTED.match(text, at)
    if quoted:
        end = QUOTED_END.match(text, quoted.end())
        if not end:
            raise Lexical('Unterminated', at, len(text))
        form = forms[quoted[1]]
        return form, value_of(text[quoted.end():end.end() - 1], form, at, end.end()), end.end()
    if text.startswith("b'", at) or text[at] == "'" and (text[at + 1:at + 2] == '\\' or text[at + 2:at + 3] == "'"):
        return letter_at(text, at)
    number = NUMBER.match(text, at)
    return ('number', None, number.end()) if number else None


def letter_at(text, at):
    """The literal of one character or byte that opens here."""
    form = 'byte' if text[at] == 'b' else 'char'
    opening = at + text[at:].index("'") + 1
    end = opening + 2 if form == 'char' and text[opening] != '\\' else None
    if end is None:
        found = LETTER_END.match(text, opening)
        if not found:
            raise Lexical('Unterminated', at, len(text))
        end = found.end()
    value = value_of(text[opening:end - 1], form, at, end)
    if len(value) != 1:
        raise Lexical('BadLiteral', at, end)
    return form, None, end


class Reader:
    """Reads the trees of a text. The list `open` holds the groups that are begun and the trees that
    stand before each."""

    def __init__(self, text):
        self.text, self.open, self.trees = text, [], []
        self.places = range(len(text) + 1) if text.isascii() else list(accumulate((len(sign.encode()) for sign in text), initial=0))

    def add(self, kind, start, end, **more):
        self.trees.append(Tree(kind, self.text[start:end], self.places[start], self.places[end], **more))
        return end

    def read(self):
        at = 1 if self.text.startswith('\ufeff') else 0
        while at < len(self.text):
            at = self.lexeme(at)
        if self.open:
            raise Lexical('Unbalanced', self.open[-1][1], self.open[-1][1] + 1)
        return self.trees

    def lexeme(self, at):
        text = self.text
        blanks = BLANKS.match(text, at)
        if blanks:
            return blanks.end()
        end = comment_end(text, at)
        if end is not None:
            if is_documentation(text[at:end]):
                self.add('doc', at, end, line=text[at + 1] == '/', inner=text[at + 2] == '!')
            return end
        literal = literal_at(text, at)
        if literal:
            form, value, end = literal
            suffix = NAME.match(text, end) if form != 'number' else None
            return self.add('literal', at, suffix.end() if suffix else end, form=form, value=value)
        name = NAME.match(text, at)
        if name:
            return self.add('ident', at, name.end())
        return self.sign(at)

    def sign(self, at):
        """A delimiter, a punctuation, or the `'` of a lifetime."""
        sign = self.text[at]
        if sign in OPENING:
            self.open.append((self.trees, at))
            self.trees = []
        elif sign in ')]}':
            if not self.open or OPENING[self.text[self.open[-1][1]]] != sign:
                raise Lexical('Unbalanced', at, at + 1)
            inside = self.trees
            self.trees, start = self.open.pop()
            self.trees.append(Tree('group', self.text[start], self.places[start], self.places[at + 1], trees=inside))
        elif sign == "'" and NAME.match(self.text, at + 1):
            self.add('punct', at, at + 1, alone=False)
        elif sign in PUNCTUATION:
            after = self.text[at + 1:at + 2]
            follows = after != '' and after in PUNCTUATION + "'" and self.text[at + 1:at + 3] not in ('//', '/*')
            self.add('punct', at, at + 1, alone=not follows)
        else:
            raise Lexical('BadCharacter', at, at + 1)
        return at + 1


def tokenize(text):
    """The trees of a source, or a `Lexical` whose places are bytes."""
    reader = Reader(text)
    try:
        return reader.read()
    except Lexical as fault:
        raise Lexical(fault.kind, reader.places[fault.start], reader.places[fault.end]) from None


def printed(run):
    """The text of a run: lexemes parted by a space, none behind a punctuation that others follow
    directly."""
    return re.sub('[ \n]$', '', spread(run)) if run and not run[-1].kind == 'doc' else spread(run)


def spread(run):
    out = ''
    for tree in run:
        if tree.kind == 'group':
            out += f'{tree.text} {spread(tree.trees)}{OPENING[tree.text]} '
        elif tree.kind == 'punct':
            out += tree.text + (' ' if tree.alone else '')
        else:
            out += tree.text + ('\n' if tree.kind == 'doc' and tree.line else ' ')
    return out
