"""Reads types, as far as faults rest on them: what is no type, what is left out, and which names
stand where types are walked."""


class NotAType(Exception):
    """What stands in place of a type, or None where the tokens run out."""

    def __init__(self, tree):
        super().__init__(tree)
        self.tree = tree


class LeftOut(Exception):
    """A type that is left out, as its run."""

    def __init__(self, run):
        super().__init__(run)
        self.run = run


class Cursor:
    """A run of trees and a place in it."""

    def __init__(self, trees):
        self.trees, self.at = trees, 0

    def peek(self, ahead=0):
        return self.trees[self.at + ahead] if self.at + ahead < len(self.trees) else None

    def take(self):
        self.at += 1
        return self.trees[self.at - 1]

    def is_punct(self, sign, ahead=0):
        return self.peek(ahead) is not None and self.peek(ahead).is_punct(sign)

    def is_word(self, word):
        return self.peek() is not None and self.peek().is_word(word)

    def is_group(self, opening, ahead=0):
        return self.peek(ahead) is not None and self.peek(ahead).is_group(opening)

    def is_joined(self, first, second):
        """Whether a sign of two characters, such as `::`, comes next."""
        return self.is_punct(first) and not self.peek().alone and self.is_punct(second, 1)

    def need(self, fits):
        if not fits:
            raise NotAType(self.peek())

    def expect(self, fits):
        self.need(fits)
        return self.take()

    def end(self):
        self.need(self.peek() is None)

    def name(self):
        return self.expect(self.peek() is not None and self.peek().kind == 'ident')

    def lifetime(self):
        """Takes a lifetime, where one comes next."""
        if not self.is_punct("'"):
            return False
        self.at += 2
        return True


class TypeReader(Cursor):
    """Reads one type. The list `named` gets the paths of one name alone that stand where types are
    walked."""

    def __init__(self, trees, named):
        super().__init__(trees)
        self.named = named

    def inside(self, group, read):
        """Reads all that stands in a group by `read`, as often as commas part it."""
        reader = TypeReader(group.trees, self.named)
        while reader.peek() is not None:
            read(reader)
            if reader.peek() is not None:
                reader.expect(reader.is_punct(','))

    def type(self):
        next_one = self.peek()
        if next_one is None:
            raise NotAType(None)
        if next_one.is_group('('):
            return self.inside(self.take(), TypeReader.type)
        if next_one.is_group('['):
            return self.slice_or_array(self.take())
        if next_one.is_punct('&'):
            self.take()
            self.lifetime()
            if self.is_word('mut'):
                self.take()
            return self.type()
        if next_one.is_punct('*'):
            self.take()
            self.expect(self.is_word('const') or self.is_word('mut'))
            return self.type()
        return self.named_type(next_one)

    def slice_or_array(self, group):
        reader = TypeReader(group.trees, self.named)
        reader.type()
        if reader.peek() is not None:
            reader.expect(reader.is_punct(';'))
            reader.need(reader.peek() is not None)

    def named_type(self, first):
        start = self.at
        if first.is_punct('!') or first.is_word('_'):
            self.take()
            raise LeftOut([first])
        if first.is_word('impl') or first.is_word('dyn'):
            self.take()
            self.bounds()
            if first.text == 'impl':
                raise LeftOut(self.trees[start:self.at])
        elif any(first.is_word(word) for word in ('for', 'unsafe', 'extern', 'fn')):
            self.function()
        else:
            self.path()
            if self.is_punct('!'):
                self.at += 2
                raise LeftOut(self.trees[start:self.at])

    def function(self):
        if self.is_word('for'):
            self.take()
            self.binder()
        if self.is_word('unsafe'):
            self.take()
        if self.is_word('extern'):
            self.take()
            if self.peek() is not None and self.peek().kind == 'literal':
                self.take()
        self.expect(self.is_word('fn'))
        self.expect(self.is_group('('))
        self.inside(self.trees[self.at - 1], TypeReader.input)
        self.output()

    def input(self):
        """The type of a function's input, with a name or without."""
        if self.peek().kind == 'ident' and self.is_punct(':', 1) and self.peek(1).alone:
            self.at += 2
        self.type()

    def output(self):
        if self.is_joined('-', '>'):
            self.at += 2
            self.type()

    def binder(self):
        self.expect(self.is_punct('<'))
        while not self.is_punct('>'):
            if not self.lifetime():
                self.expect(self.is_punct(','))
        self.take()

    def bounds(self):
        while True:
            if not self.lifetime():
                if self.is_punct('?'):
                    self.take()
                if self.is_word('for'):
                    self.take()
                    self.binder()
                self.path(bound=True)
            if not self.is_punct('+'):
                return
            self.take()

    def path(self, bound=False):
        start = self.at
        if self.is_punct('<'):
            self.take()
            TypeReader.type_unwalked(self)
            if self.is_word('as'):
                self.take()
                self.path(bound=True)
            self.expect(self.is_punct('>'))
            self.expect(self.is_joined(':', ':'))
            self.take()
        elif self.is_joined(':', ':'):
            self.at += 2
        self.segment()
        while self.is_joined(':', ':'):
            self.at += 2
            self.segment()
        if self.at == start + 1 and not bound:
            self.named.append(self.trees[start].text)

    def type_unwalked(self):
        kept, self.named = self.named, []
        self.type()
        self.named = kept

    def segment(self):
        self.name()
        if self.is_joined(':', ':') and self.is_punct('<', 2):
            self.at += 2
        if self.is_punct('<'):
            self.take()
            self.arguments()
        elif self.is_group('('):
            self.inside(self.take(), TypeReader.type)
            self.output()

    def arguments(self):
        while not self.is_punct('>'):
            if self.lifetime():
                pass
            elif self.peek() is not None and (self.peek().kind == 'literal' or self.peek().is_group('{')):
                self.take()
            else:
                if self.peek() is not None and self.peek().kind == 'ident' and self.is_punct('=', 1):
                    self.at += 2
                self.type()
            if not self.is_punct('>'):
                self.expect(self.is_punct(','))
        self.take()


def names_of(run):
    """The names that a written type names where types are walked. Raises where the run is no type,
    or one that is left out."""
    named = []
    reader = TypeReader(run, named)
    reader.type()
    reader.end()
    return named


def is_type(run):
    try:
        names_of(run)
    except (NotAType, LeftOut):
        return False
    return True
