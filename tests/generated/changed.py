"""Writes rows of calls: enums of which pieces are dropped, doubled or turned, each with the fault
that the plain reader finds in it."""

from enums import Unread, read_enum
from tokens import tokenize

PIECES = [
    ('', "# [a] # [b(c)] pub (crate) enum E < 'a : 'b , # [d] T : U + V = W , X , Y = Z , const N : u8 = 3 > where T : U , {A,B(u8),}", ''),
    ('enum E { ', '# [a] # [b=c] A , B (u8,u8) = 1 + (u8) , C {x:u8} , D = f , E () ,', '}'),
    ('enum E { A { ', '# [a] pub (crate) x : u8 , y : (u8,u8) , # [b] z : [u8] , pub w : F (u8) ,', '} }'),
]
# A second change is at most so many pieces after the first.
NEAR = 6


def changes(pieces, first, last):
    """The pieces with one changed between these places: dropped, doubled, or turned with the
    next."""
    for at in range(first, min(last, len(pieces))):
        yield at, pieces[:at] + pieces[at + 1:]
        yield at, pieces[:at] + pieces[at:at + 1] + pieces[at:]
        yield at, pieces[:at] + pieces[at + 1:at + 2] + pieces[at:at + 1] + pieces[at + 2:]


def sources():
    """All sources with one change or two, each once."""
    found = {}
    for before, text, after in PIECES:
        pieces = text.split(' ')
        for at, once in changes(pieces, 0, len(pieces)):
            for changed in [once, *(twice for _, twice in changes(once, at, at + NEAR + 1))]:
                found[before + ''.join(piece + ' ' for piece in changed) + after] = None
    return list(found)


def fault(source):
    """The fault of a source as the call is to write it."""
    try:
        read_enum(tokenize(source))
    except Unread as unread:
        start, end = unread.place
        return f'{unread.code} {{ span: Span {{ from: {start}, to: {end} }} }}'
    return 'none'


def edged(source):
    """A source as a row writes it."""
    for text, number in (('# ', '⟨23⟩ '), (' ', '⟨20⟩')):
        if source.startswith(text):
            source = number + source[len(text):]
    return source[:-1] + '⟨20⟩' if source.endswith(' ') else source


def main():
    rows = [f'{edged(source)} => {fault(source)}' for source in sources()]
    print(f'# rows: {len(rows)}', '', '== read_enum fault', *rows, sep='\n')


if __name__ == '__main__':
    main()
