"""Writes rows of calls: texts of pieces of expressions, each with its tokens or its first error, as
a plain tokenizer has it."""

import re
from random import Random

PIECES = ['let', 'letx', 'x1', '_', '40', '2', ' ', '\n', '==', '=', '+', '-', '*', '/', '(', ')']
OTHERS = ['.', 'é', 'A', '\r']
TOKEN = re.compile(r'(?P<Number>[0-9]+)|(?P<Let>let(?![a-z0-9_]))|(?P<Name>[a-z_][a-z0-9_]*)|(?P<EqEq>==)|(?P<Eq>=)|(?P<Plus>\+)|(?P<Minus>-)|(?P<Star>\*)|(?P<Slash>/)'
                   r'|(?P<Open>\()|(?P<Close>\))|(?P<blank>[ \t\n]+)')
TEXTS, ERRORS = 500, (50, 450)


def tokens(text):
    """The tokens of a text with their spans, or the span of the first character that begins
    none."""
    found, at = [], 0
    while at < len(text):
        token = TOKEN.match(text, at)
        start = len(text[:at].encode())
        if token is None:
            return f'bad {start}..{start + len(text[at].encode())}'
        if token.lastgroup != 'blank':
            found.append(f'{token.lastgroup} {start}..{start + len(token[0].encode())}')
        at = token.end()
    return ', '.join(found)


def written(text):
    """A text in the notation of rows."""
    out = ''.join(f'⟨{ord(sign):X}⟩' if sign < ' ' else sign for sign in text)
    return re.sub('^ | $', '⟨20⟩', out)


def main():
    random, rows = Random(1), []
    for _ in range(TEXTS):
        text = ''.join(random.choice(OTHERS if random.random() < 0.06 else PIECES) for _ in range(random.randint(1, 12)))
        rows.append((text, tokens(text)))
    assert ERRORS[0] < sum(found.startswith('bad') for _, found in rows) < ERRORS[1], 'too few errors, or too many'
    print(f'# rows: {TEXTS}', '', '== Language::tokens', *(f'{written(text)} => {found}'.rstrip(' ') for text, found in rows), sep='\n')


if __name__ == '__main__':
    main()
