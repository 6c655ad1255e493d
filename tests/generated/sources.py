"""Makes the sources: enums of options and variants, with gaps and comments of all kinds, and with
wrong pieces."""

import re
from pattern_texts import LiteralMaker
from tables import table

forms = table('forms')
# Without commas outside of groups, as an argument of an attribute wants them.
VALUE_TYPES = [form for form in forms.TYPES if form.count(',') == form.count('( T , U )')]
GAPS = [' ', ' ', ' ', '\n', '\t', '  ', '/* c */', '// c\n', '/* a /* b */ c */', '\r\n', '\u200e', '\u2028', '/**/',
        '////x\n', '\x0b', '/***/', '// c\r\n']
SIGNS = '~!@#$%^&*-=+|;:,<.>?'
WORD_END, WORD_START = re.compile(r"[\w\"'#]$"), re.compile(r"[\w\"'#]")


class Text(str):
    """A lexeme that is not split at blanks."""


def lexemes(*parts):
    out = []
    for part in parts:
        out += [part] if isinstance(part, Text) else part if isinstance(part, list) else part.split(' ')
    return [lexeme for lexeme in out if lexeme]


class SourceMaker(LiteralMaker):
    """Makes one source. `wrong` is the share of pieces that are wrong; `odd` says whether gaps are
    of all kinds."""

    def __init__(self, random, wrong, turn):
        super().__init__(random)
        self.wrong, self.odd, self.turn = wrong, random.random() < 0.4, turn
        self.parameters, self.set, self.serial, self.distinct = [], False, 0, random.random() < (0.4 if wrong else 0.8)

    def is_wrong(self):
        return self.chance(self.wrong)

    def source(self):
        if self.wrong and self.chance(0.05):
            return self.joined(lexemes(self.next_wrong(forms.BROKEN_SOURCES)))
        head = self.head()
        options = [self.item_attribute() for _ in range(self.pick([1 if self.wrong else 0, 1, 1, 2, 3]))]
        parts = lexemes(*options, *head)
        variants = [self.variant() for _ in range(self.pick([1, 2, 3, 4, 5]))]
        for variant in variants:
            parts += variant + ([','] if variant is not variants[-1] or self.chance(0.5) else [])
        text = self.joined(parts + ['}'])
        if self.wrong and self.chance(0.05):
            place = self.random.randrange(len(text) + 1)
            text = text[:place] + self.next_wrong(forms.BROKEN_TEXTS) + text[place:]
        return '\ufeff' + text if self.chance(0.02) else text

    def joined(self, parts):
        """The text of lexemes with gaps between them."""
        out = self.pick(GAPS) if self.odd else ''
        for at, part in enumerate(parts):
            out += part
            behind = parts[at + 1] if at + 1 < len(parts) else ''
            words = WORD_END.search(part) and WORD_START.match(behind)
            signs = part[-1] in SIGNS and behind[:1] and behind[:1] in SIGNS + "'"
            if words or signs and not (self.wrong and self.chance(0.03)) or self.chance(0.6 if self.odd else 0.3):
                out += self.pick(GAPS) if self.odd else ' '
        return out

    def head(self):
        """What stands between the item's attributes and its variants, with the generic
        parameters."""
        found = []
        if self.chance(0.3):
            found.append(self.pick(["'a", "'a : 'b", "# [ x ] 'a"]))
        if self.is_wrong():
            found.append(self.pick(["'b", "'c : 'a + 'b", 'const N : usize', 'const N : usize = 3', "# [ y ] 'd"]))
        for name in self.pick([[], [], [], ['T'], ['T'], ['T', 'U'], ['T', 'U', 'V']]):
            self.parameters.append(name)
            found.append(name + self.pick(['', '', ' : Copy + Clone', ' = u8', ' : Iter < Item = u8 >']))
        if self.parameters and self.is_wrong():
            found.append('T')
        generics = ('< ' + ' , '.join(found) + self.pick([' >', ' , >'])) if found else self.pick(['', '', '', '< >'])
        visibility = self.pick(['', '', 'pub', 'pub ( crate )', 'pub ( in a :: b )'])
        where = self.pick(['', '', '', 'where T : Copy'])
        return [f'{visibility} enum {self.pick(["E", "Token", "My", "r#enum", "_"])} {generics} {where} {{']

    def item_attribute(self):
        if self.is_wrong() and self.chance(0.2):
            return lexemes(self.next_wrong(forms.NO_ITEM_ATTRIBUTES))
        if self.chance(0.2):
            return lexemes(self.pick(forms.OTHERS))
        options = []
        for parameter in self.parameters if not self.set else []:
            if not self.wrong or self.chance(0.9):
                options.append(self.type_option(parameter))
        self.set = True
        options += [self.option() for _ in range(self.pick([0, 1, 1, 2, 3]))]
        for _ in range(self.pick([0, 1, 2, 3] if self.wrong else [0])):
            options.append(lexemes(self.next_wrong(forms.NO_OPTIONS)))
        if self.is_wrong():
            self.random.shuffle(options)
        brackets = self.pick(['( )', '( )', '( )', '[ ]', '{ }']).split(' ')
        inside = self.listed(options)
        return lexemes('# [ logos', [brackets[0]], inside, [brackets[1]], ']')

    def listed(self, options):
        """Pieces with commas between them, and sometimes a lexeme too few or too many."""
        inside = [lexeme for option in options for lexeme in option + [',']]
        if inside and self.chance(0.7):
            inside.pop()
        if self.is_wrong() and inside and self.chance(0.5):
            at = self.random.randrange(len(inside))
            one = inside[at]
            inside[at:at + 1] = self.pick([[], [one, one], [one, self.pick(inside)], [self.pick([',', '=', 'x', '5', '|'])]])
        return balanced(inside)

    def type_option(self, parameter):
        if self.is_wrong():
            return lexemes(f'type {parameter} = {self.next_wrong(forms.NO_TYPES + VALUE_TYPES)}')
        plain = [form for form in VALUE_TYPES if not {'T', 'U'} & set(form.split(' '))]
        return lexemes(f'type {parameter} = {self.pick(plain)}')

    def option(self):
        if self.is_wrong():
            return lexemes(self.next_wrong(forms.NO_OPTIONS))
        kind = self.random.random()
        if kind < 0.4:
            if self.chance(0.5):
                return lexemes('skip', Text(self.literal(self.some_pattern())))
            return lexemes('skip (', self.definition(False), ')')
        if kind < 0.65:
            return self.subpattern()
        if kind < 0.75:
            return lexemes('utf8 = ' + self.pick(['true', 'false', 'false']))
        return lexemes(self.pick(forms.OPTIONS))

    def subpattern(self):
        name = self.pick(['m', 'n', 'o', '_', 'p1']) if self.is_wrong() else f's{len(self.names)}'
        text = self.pick(['[0-9]', '[a-c]+', 'ab|cd', 'x(?:y|z)', '(?i)k', 'é?', '(q)', '']) if self.chance(0.7) else self.some_pattern()
        parts = lexemes(f'subpattern {name} =', Text(self.literal(text)))
        self.names.append(name)
        return parts

    def some_pattern(self):
        return self.faulty_pattern() if self.is_wrong() else self.pattern()

    def callback(self):
        return self.next_wrong(forms.NO_CALLBACKS) if self.is_wrong() else self.pick(forms.CALLBACKS)

    def definition(self, is_token):
        """What stands in the parenthesis of a pattern."""
        if self.is_wrong() and self.chance(0.3):
            found = [lexemes(self.next_wrong(forms.NO_LITERALS))]
        elif is_token:
            found = [lexemes(Text(self.literal(self.word() if not self.is_wrong() else self.pick(['', 'é', 'a', 'k']))))]
        elif self.wrong and self.chance(0.05):
            found = [lexemes(Text(self.pick(['b"\\xFF+"', 'b"\\xFF[^a]"', 'br"\\xFE"', 'b"\\0"'])))]
        else:
            found = [lexemes(Text(self.literal(self.some_pattern())))]
        if self.chance(0.2):
            found.append(lexemes(self.callback()))
        elif self.chance(0.15):
            found.append(lexemes('callback =', self.callback()))
        if self.is_wrong() and self.chance(0.5):
            found.append(lexemes('priority = ' + self.next_wrong(forms.PRIORITIES + forms.NO_PRIORITIES)))
        elif self.distinct or self.chance(0.1):
            self.serial += 1
            found.append(lexemes(f'priority = {self.serial}'))
        for _ in range(self.pick([0, 1, 1, 2] if self.wrong else [0, 0, 0, 1, 2])):
            if self.is_wrong() or self.wrong and self.chance(0.2):
                found.append(lexemes(self.next_wrong(forms.NO_PIECES)))
            elif self.chance(0.5):
                found.append(lexemes(self.pick(forms.PIECES[:3])))
        if self.is_wrong():
            self.random.shuffle(found)
        elif self.chance(0.1) and not any('allow_greedy' in piece for piece in found):
            found.append(lexemes(self.pick(forms.PIECES[3:])))
        return self.listed(found)

    def variant(self):
        attributes = []
        for _ in range(self.pick([0, 1, 1, 1, 2, 3])):
            if self.is_wrong() and self.chance(0.3):
                attributes += lexemes(self.next_wrong(forms.NO_VARIANT_ATTRIBUTES))
            elif self.chance(0.15):
                attributes += lexemes(self.pick(forms.OTHERS))
            else:
                is_token = self.chance(0.45)
                attributes += lexemes('# [', 'token' if is_token else 'regex', '(', self.definition(is_token), ') ]')
        name = self.pick(['A', 'B', 'Other', 'r#fn', 'É', '_'])
        number = lexemes(self.pick(['', '', '', '', '= 1', '= { x } + 1']))
        return attributes + [name] + lexemes(self.fields()) + number

    def fields(self):
        if self.chance(0.6):
            return ''
        if self.is_wrong() and self.chance(0.15):
            return self.next_wrong(forms.BROKEN_FIELDS)
        form = self.pick(forms.NO_FIELDS if self.is_wrong() else forms.FIELDS)
        return form.format(*(self.pick(forms.TYPES) for _ in range(3)))


def balanced(parts):
    """The lexemes as they are, or without their delimiters where these do not fit."""
    open_ones = []
    for part in parts:
        if part in ('(', '[', '{'):
            open_ones.append({'(': ')', '[': ']', '{': '}'}[part])
        elif part in (')', ']', '}') and (not open_ones or open_ones.pop() != part):
            open_ones.append('')
            break
    return [part for part in parts if part not in ('(', ')', '[', ']', '{', '}')] if open_ones else parts
