"""Reads an enum's parts from its tokens: attributes, generic parameters and variants."""

from collections import namedtuple
from tokens import span
from written_types import Cursor, LeftOut, NotAType, TypeReader

# An attribute: its place, the one name that is its path (None for other paths), and the group
# behind it, where there is one.
Attribute = namedtuple('Attribute', 'span name group')
# A generic parameter: `lifetime`, `constant` or `type`, its name and the places of the name and of
# all of it.
Parameter = namedtuple('Parameter', 'kind name name_span span')
# A variant: its attributes, its name, the group of its fields and how many these are.
Variant = namedtuple('Variant', 'attributes name fields count')
Enum = namedtuple('Enum', 'attributes name parameters variants span')


class Unread(Exception):
    """The fault that ends the reading of an enum."""

    def __init__(self, code, place):
        super().__init__(code)
        self.code, self.place = code, place


class EnumReader(TypeReader):
    def __init__(self, trees):
        super().__init__(trees, [])

    def attributes(self):
        found = []
        while True:
            tree = self.peek()
            if tree is not None and tree.kind == 'doc' and not tree.inner:
                found.append(Attribute(span([self.take()]), 'doc', None))
            elif self.is_punct('#'):
                self.take()
                found.append(self.attribute(self.expect(self.is_group('[')), tree))
            else:
                return found

    def attribute(self, bracket, sign):
        inside = Cursor(bracket.trees)
        start = inside.is_joined(':', ':')
        inside.at += 2 if start else 0
        names = [inside.name().text]
        while inside.is_joined(':', ':'):
            inside.at += 2
            names.append(inside.name().text)
        group = inside.peek()
        if group is not None and group.kind == 'group':
            inside.take()
            inside.end()
        elif group is not None:
            inside.expect(group.is_punct('=') and inside.peek(1) is not None)
            group = None
        name = names[0] if len(names) == 1 and not start else None
        return Attribute((sign.start, bracket.end), name, group)

    def visibility(self):
        if self.is_word('pub'):
            self.take()
            if self.is_group('('):
                self.take()

    def until(self, ends):
        """The run up to the first of these signs outside angle brackets, or to the end."""
        start, depth = self.at, 0
        while self.peek() is not None and not (depth == 0 and any(self.is_punct(sign) for sign in ends)):
            arrow = self.is_joined('-', '>')
            depth += 1 if self.is_punct('<') else -1 if self.is_punct('>') else 0
            self.at += 2 if arrow else 1
        return self.trees[start:self.at]

    def tail(self, kind):
        """What follows a parameter's name: bounds, or the type of a constant, and a default."""
        if kind == 'constant' or self.is_punct(':'):
            self.expect(self.is_punct(':'))
            run = self.until('=,>')
            self.need(run or kind != 'constant')
        if kind != 'lifetime' and self.is_punct('='):
            self.take()
            self.need(self.until(',>'))

    def parameters(self):
        found = []
        if not self.is_punct('<'):
            return found
        self.take()
        while not self.is_punct('>'):
            start = self.at
            self.attributes()
            first = self.peek()
            kind = 'lifetime' if self.is_punct("'") else 'constant' if self.is_word('const') else 'type'
            if kind != 'type':
                self.take()
            name = self.name()
            self.tail(kind)
            found.append(Parameter(kind, name.text, span([name]), (self.trees[start].start, self.trees[self.at - 1].end)))
            if not self.is_punct('>'):
                self.expect(self.is_punct(','))
        self.take()
        return found

    def variants(self):
        found = []
        while self.peek() is not None:
            attributes, name, fields = self.attributes(), self.name(), None
            if self.is_group('(') or self.is_group('{'):
                fields = self.take()
            count = count_fields(fields) if fields is not None else 0
            found.append(Variant(attributes, name.text, fields, count))
            if self.is_punct('='):
                self.take()
                start = self.at
                while self.peek() is not None and not self.is_punct(','):
                    self.take()
                self.need(self.at > start)
            if self.peek() is not None:
                self.expect(self.is_punct(','))
        return found


def count_fields(group):
    """The number of fields. Raises at the first whose type is none or is left out."""
    reader, count = EnumReader(group.trees), 0
    while reader.peek() is not None:
        reader.attributes()
        reader.visibility()
        if group.text == '{':
            reader.name()
            reader.expect(reader.is_punct(':'))
        reader.type()
        count += 1
        if reader.peek() is not None:
            reader.expect(reader.is_punct(','))
    return count


def read_enum(trees):
    """The enum that all these trees are. Raises `Unread`."""
    reader = EnumReader(trees)
    try:
        attributes = reader.attributes()
        reader.visibility()
    except NotAType:
        attributes = None
    if attributes is None or not reader.is_word('enum'):
        raise Unread('NotAnEnum', span(trees))
    reader.take()
    try:
        name = reader.name()
        parameters = reader.parameters()
        if reader.is_word('where'):
            while reader.peek() is not None and not reader.is_group('{'):
                reader.take()
        body = reader.expect(reader.is_group('{'))
        variants = EnumReader(body.trees).variants()
        reader.end()
    except NotAType as fault:
        raise Unread('Grammar', span([fault.tree] if fault.tree is not None else [])) from None
    except LeftOut as fault:
        raise Unread('TypeUnsupported', span(fault.run)) from None
    return Enum(attributes, name.text, parameters, variants, span(trees))
