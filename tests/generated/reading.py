"""Reads a source whole: its faults in order, or its leaves."""

import re
from collections import namedtuple
from attributes import Options, read_definition
from enums import Unread, read_enum
from faults import ASSIGNED_HERE, Faults
from matching import Matching
from patterns import EMPTY, Faulty, compiled, subpatterns_of
from tokens import Lexical, span, tokenize
from trees import has_greedy_dot, has_look, is_passable, is_utf8, leads, size, value

MOST, MOST_SIZE = 2 ** 64 - 1, 2 ** 20
# A leaf: the place and text of its literal, its tree, its priority, the text of its kind and the
# attribute that names it.
Leaf = namedtuple('Leaf', 'place source tree priority kind attribute')


def shown(leaf):
    return f'#[{leaf.attribute}({leaf.source})] {leaf.kind}'


class Reading:
    """A source read whole. `faults` are those that are listed; `leaves` are there also where some
    are."""

    def __init__(self, source):
        self.faults, self.leaves, self.utf8, self.matching, self.stored = Faults(), [], True, None, {}
        try:
            self.enum = read_enum(tokenize(source))
        except Lexical as fault:
            self.faults.add('Lexical', (fault.start, fault.end), fault.kind)
            return
        except Unread as fault:
            self.faults.add(fault.code, fault.place)
            return
        self.read_parameters()
        self.options = Options(self.enum.parameters, self.faults)
        for attribute in self.enum.attributes:
            if attribute.name == 'logos':
                self.options.read(attribute)
        self.options.check_types()
        self.utf8 = self.options.utf8
        for name, literal in self.options.subpatterns:
            self.store(name, literal)
        for definition in self.options.skips:
            self.add_pattern(definition, '::<skip>')
        for variant in self.enum.variants:
            self.read_variant(variant)
        self.check_utf8()
        self.options.name_untyped()
        self.check_graph()

    def read_parameters(self):
        lifetimes = 0
        for parameter in self.enum.parameters:
            lifetimes += parameter.kind == 'lifetime'
            if parameter.kind == 'lifetime' and lifetimes > 1:
                self.faults.add('ManyLifetimes', parameter.span)
            elif parameter.kind == 'constant':
                self.faults.add('ConstGeneric', parameter.span)

    def replaced(self, text, place):
        """The text with its subpatterns put in, or None where one is missing."""
        missing = [name for name in (found[1] for found in subpatterns_of(text)) if name not in self.stored]
        for name in missing:
            self.faults.add('SubpatternMissing', place, name)
        if missing:
            return None
        return re.sub(r'\(\?&([0-9a-zA-Z_]+)\)', lambda found: self.stored[found[1]][0], text)

    def compile(self, text, place, unicode, ignores_case=False):
        try:
            return compiled(text, unicode, ignores_case)
        except Faulty:
            self.faults.add('Regex', place)
            return None

    def store(self, name, literal):
        place, unicode = span([literal]), literal.form == 'str'
        if not re.fullmatch('[0-9a-zA-Z_]+', name.text):
            return self.faults.add('SubpatternName', span([name]), name.text)
        text = self.replaced(f'(?{"u" if unicode else "-u"}:{spelled(literal)})', place)
        tree = self.compile(text, place, True) if text is not None else None
        if tree is None:
            return None
        if self.utf8 and not is_utf8(tree):
            return self.faults.add('Utf8Subpattern', place, name.text, literal.text)
        if name.text in self.stored:
            self.faults.add_both('SubpatternTwice', span([name]), self.stored[name.text][1], ASSIGNED_HERE, name.text)
        self.stored[name.text] = text, span([name])
        return None

    def add_pattern(self, definition, kind):
        """The leaf of a regex or a skip."""
        literal, place = definition.literal, span([definition.literal])
        text = self.replaced(spelled(literal), place)
        tree = self.compile(text, place, literal.form == 'str', definition.ignores_case) if text is not None else None
        if tree is None:
            return
        if not definition.greedy and has_greedy_dot(tree):
            self.faults.add('GreedyDot', place)
        priority = definition.priority if definition.priority is not None else value(tree)
        if priority > MOST:
            self.faults.add('PriorityOverflow', place)
        else:
            self.leaves.append(Leaf(place, literal.text, tree, priority, kind, 'regex'))

    def add_token(self, definition, kind):
        literal = definition.literal
        text = literal.value.encode() if literal.form == 'str' else literal.value
        if definition.ignores_case:
            tree = compiled(escaped(literal), literal.form == 'str', True)
        else:
            tree = ('literal', text) if text else EMPTY
        priority = definition.priority if definition.priority is not None else 2 * len(text)
        self.leaves.append(Leaf(span([literal]), literal.text, tree, priority, kind, 'token'))

    def read_variant(self, variant):
        kind = f'::{variant.name}'
        if variant.fields is not None and variant.fields.text == '{':
            self.faults.add('NamedFields', span([variant.fields]))
            kind = '::<skip>'
        elif variant.fields is not None:
            if variant.count != 1:
                self.faults.add('VariantFields', span([variant.fields]), variant.count)
            kind = f'::{variant.name}(_)' if variant.count else '::<skip>'
        for attribute in variant.attributes:
            if attribute.name == 'error':
                self.faults.add('ErrorVariant', attribute.span)
            elif attribute.name in ('token', 'regex'):
                definition = read_definition(attribute.group.trees, self.faults) if attribute.group is not None else None
                if definition is None:
                    self.faults.add('TokenForm' if attribute.name == 'token' else 'RegexForm', attribute.span)
                elif attribute.name == 'token':
                    self.add_token(definition, kind)
                else:
                    self.add_pattern(definition, kind)

    def check_utf8(self):
        for leaf in self.leaves:
            if self.utf8 and not is_utf8(leaf.tree):
                self.faults.add('Utf8Pattern', leaf.place, leaf.source, leaf.kind)

    def check_graph(self):
        if sum(size(leaf.tree) for leaf in self.leaves) > MOST_SIZE:
            return self.faults.add('LimitSize', self.enum.span)
        if any(leads(leaf.tree) for leaf in self.leaves):
            return self.faults.add('NoUniversalStart', self.enum.span)
        passable = [leaf for leaf in self.leaves if is_passable(leaf.tree)]
        for leaf in passable:
            self.faults.add('EmptyMatch', leaf.place, shown(leaf))
        if passable:
            return None
        self.matching = Matching([leaf.tree for leaf in self.leaves], [leaf.priority for leaf in self.leaves])
        for leaves in self.matching.ambiguous():
            for number in leaves:
                others = '\n'.join('  ' + shown(self.leaves[other]) for other in leaves if other != number)
                leaf = self.leaves[number]
                self.faults.add('Disambiguation', leaf.place, shown(leaf), others, leaf.priority)
        return None

    def lines(self):
        return self.faults.lines()

    def items(self, text):
        """The lines of the items of an input of bytes, or None where it would have to be text and
        is not."""
        if self.utf8:
            try:
                text.decode()
            except UnicodeDecodeError:
                return None
        skips = {number for number, leaf in enumerate(self.leaves) if leaf.kind == '::<skip>'}
        return self.matching.items(text, self.utf8, skips)

    def looks(self):
        """Whether some pattern looks."""
        return any(has_look(leaf.tree) for leaf in self.leaves)


def spelled(literal):
    """The pattern that a literal spells."""
    if literal.form == 'str':
        return literal.value
    return ''.join(chr(byte) if byte < 128 else f'\\x{byte:02X}' for byte in literal.value)


def escaped(literal):
    """The pattern that matches a literal's value alone."""
    signs = [(chr(byte) if byte < 128 else f'\\x{byte:02X}', byte < 128) for byte in literal.value] if literal.form == 'bytes' \
        else [(sign, True) for sign in literal.value]
    return ''.join('\\' + sign if bare and sign in '\\.+*?()|[]{}^$#&-~' else sign for sign, bare in signs)
