"""What is left of an enum when the attributes of the derive macro and its entries in `derive` are
removed."""

import copy
from enums import EnumReader, read_enum
from tokens import printed, tokenize

HELPERS = ('logos', 'token', 'regex')
MACRO = (['Logos'], ['logos', '::', 'Logos'], ['::', 'logos', '::', 'Logos'])


class AttributeFinder(EnumReader):
    """Reads the parts of an enum, and notes the trees of the attributes that are removed, and the
    lists of its derives."""

    def __init__(self, trees, gone):
        super().__init__(trees)
        self.gone, self.derives = gone, []

    def attribute(self, bracket, sign):
        found = super().attribute(bracket, sign)
        if found.name in HELPERS:
            self.gone += [sign, bracket]
        elif found.name == 'derive' and found.group is not None and found.group.text == '(':
            self.derives.append(found.group)
        return found

    def find_in_variants(self):
        while self.peek() is not None:
            self.attributes()
            self.name()
            if self.is_group('(') or self.is_group('{'):
                fields = self.take()
                AttributeFinder(fields.trees, self.gone).find_in_fields(fields.text == '{')
            while self.peek() is not None and not self.is_punct(','):
                self.take()
            if self.peek() is not None:
                self.take()

    def find_in_fields(self, are_named):
        while self.peek() is not None:
            self.attributes()
            self.visibility()
            if are_named:
                self.name()
                self.take()
            self.type()
            if self.peek() is not None:
                self.take()


def entry_words(entry):
    """The words of an entry, in which `::` is one."""
    words, at = [], 0
    while at < len(entry):
        is_path_sign = entry[at].is_punct(':') and not entry[at].alone and at + 1 < len(entry) and entry[at + 1].is_punct(':')
        words.append('::' if is_path_sign else entry[at].text)
        at += 2 if is_path_sign else 1
    return words


def find_entries(group, gone):
    """Notes the trees of each entry that names the macro, with the comma after it."""
    entry = []
    for tree in [*group.trees, None]:
        if tree is not None and not tree.is_punct(','):
            entry.append(tree)
            continue
        if entry_words(entry) in MACRO:
            gone += entry + ([tree] if tree is not None else [])
        entry = []


def left(trees, gone):
    """The trees without those that are removed. A punctuation directly before one of these stands
    alone."""
    found = []
    for at, tree in enumerate(trees):
        if any(tree is other for other in gone):
            continue
        tree = copy.copy(tree)
        if tree.kind == 'group':
            tree.trees = left(tree.trees, gone)
        elif tree.kind == 'punct' and at + 1 < len(trees) and any(trees[at + 1] is other for other in gone):
            tree.alone = True
        found.append(tree)
    return found


def stripped(source):
    """The text of what is left of a source. Raises what reading the enum raises."""
    trees, gone = tokenize(source), []
    read_enum(trees)
    enum = AttributeFinder(trees, gone)
    enum.attributes()
    for group in enum.derives:
        find_entries(group, gone)
    AttributeFinder(trees[-1].trees, gone).find_in_variants()
    return printed(left(trees, gone))
