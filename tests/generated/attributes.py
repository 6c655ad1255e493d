"""Reads the arguments of attributes: pieces, definitions, and all that stands in `#[logos(..)]`."""

from collections import namedtuple
from faults import ASSIGNED_HERE, CALLBACK_HERE, DEFINITION_HERE
from tokens import printed, span
from written_types import is_type, names_of

# A piece: `form` is one of unnamed, unexpected, assign, literal, group, keyword. The name and, of a
# keyword, the second word are trees.
Piece = namedtuple('Piece', 'form name word run')
OPTIONS = ('crate', 'error', 'export_dir', 'extras', 'skip', 'source', 'subpattern', 'type', 'utf8')
# The form that some options have to have, and the fault where they have another one.
FORMS = {
    'crate': ('assign', 'CrateForm'), 'export_dir': ('assign', 'ExportForm'), 'extras': ('assign', 'ExtrasForm'),
    'subpattern': ('keyword', 'SubpatternForm'), 'type': ('keyword', 'TypeForm'), 'utf8': ('assign', 'Utf8Form'),
}
MOST = 2 ** 64 - 1
TRUTH = ('true', 'false')


def cut(trees):
    """The runs before and behind the first lone comma, and whether there is one."""
    for at, tree in enumerate(trees):
        if tree.is_lone(','):
            return trees[:at], trees[at + 1:], True
    return trees, [], False


def pieces(trees):
    """All pieces of an argument."""
    found = []
    while trees:
        first, rest = trees[0], trees[1:]
        if first.kind != 'ident':
            run, trees, _ = cut(rest)
            found.append(Piece('unnamed', None, None, [first] + run))
            continue
        value, behind, _ = cut(rest)
        trees = behind
        if not value:
            found.append(Piece('unnamed', None, None, [first]))
        elif value[0].is_lone('='):
            found.append(Piece('assign', first, None, value[1:]))
        elif value[0].kind == 'literal':
            found.append(Piece('literal', first, None, value[:1]))
        elif value[0].kind == 'group':
            found.append(Piece('group', first, None, value[0].trees))
            if value[1:]:
                found.append(Piece('unexpected', None, None, value[1:]))
        elif value[0].kind != 'ident':
            found.append(Piece('unnamed', None, None, [first] + value))
        elif len(value) == 1:
            # A comma in place of the `=` is taken as that, so the value is the run behind it.
            run, trees, _ = cut(behind)
            found.append(Piece('keyword', first, value[0], run))
        elif value[1].is_lone('='):
            found.append(Piece('keyword', first, value[0], value[2:]))
        else:
            found.append(Piece('unexpected', None, None, value[1:]))
    return found


def one_literal(run):
    return run[0] if len(run) == 1 and run[0].kind == 'literal' else None


def is_text(literal):
    return literal.form in ('str', 'bytes')


def read_callback(run, faults):
    """The place of a callback, or None where there is a fault."""
    if run and not run[0].is_lone('|'):
        return span(run)
    second = run[2:3]
    argument = run[1:2]
    if not argument or argument[0].kind != 'ident' or second and not second[0].is_lone('|'):
        faults.add('CallbackClosure', span(run))
        return None
    if not run[3:]:
        faults.add('CallbackBody', span(run))
        return None
    return span(run)


class Definition:
    """A pattern's literal and what is said of it. The places of the faults go into `faults`."""

    NAMES = 'priority, callback'
    # The form that an argument has to have, the fault where it has another one, and what reads it.
    NAMED = {
        'priority': ('assign', 'PriorityForm', 'read_priority'),
        'allow_greedy': ('assign', 'GreedyForm', 'read_greedy'),
        'callback': ('assign', 'CallbackForm', 'read_named_callback'),
        'ignore': ('group', 'IgnoreForm', 'read_ignore'),
    }

    def __init__(self, literal):
        self.literal, self.priority, self.greedy, self.callback, self.ignores_case = literal, None, None, None, False

    def read_pieces(self, found, faults):
        for position, piece in enumerate(found):
            if piece.form == 'unexpected':
                faults.add('UnexpectedToken', span(piece.run))
            elif piece.form == 'unnamed' and position == 0:
                self.callback = read_callback(piece.run, faults)
            elif piece.form == 'unnamed':
                faults.add('NamedExpected', span(piece.run))
            else:
                self.named(piece, faults)

    def named(self, piece, faults):
        if piece.name.text not in self.NAMED:
            return faults.add('UnknownNested', span([piece.name]), piece.name.text, self.NAMES)
        form, code, reading = self.NAMED[piece.name.text]
        if piece.form != form:
            return faults.add(code, span([piece.name]))
        return getattr(self, reading)(piece, faults)

    def read_priority(self, piece, faults):
        literal = one_literal(piece.run)
        digits = literal.text if literal else ''
        if not (digits.isascii() and digits.isdigit()) or int(digits) > MOST:
            return faults.add('PriorityValue', span(piece.run))
        if self.priority is not None:
            faults.add('PriorityTwice', span(piece.run))
        self.priority = int(digits)

    def read_greedy(self, piece, faults):
        if len(piece.run) != 1 or piece.run[0].kind != 'ident' or piece.run[0].text not in TRUTH:
            return faults.add('GreedyValue', span(piece.run))
        if self.greedy is not None:
            faults.add('GreedyTwice', span(piece.run))
        self.greedy = piece.run[0].text == 'true'

    def read_named_callback(self, piece, faults):
        callback = read_callback(piece.run, faults)
        if callback is None:
            return faults.add('CallbackValue', span(piece.run))
        if self.callback is not None:
            faults.add_both('CallbackTwice', span(piece.run), self.callback, CALLBACK_HERE)
        self.callback = callback

    def read_ignore(self, piece, faults):
        at, met = 0, False
        while at < len(piece.run) or not met:
            flag = piece.run[at] if at < len(piece.run) else None
            if flag is None or flag.kind != 'ident':
                return faults.add('IgnoreEmpty', span([piece.name]))
            if flag.text != 'case':
                code = 'IgnoreAscii' if flag.text == 'ascii_case' else 'IgnoreUnknown'
                return faults.add(code, span([flag]), flag.text)
            self.ignores_case = met = True
            behind = piece.run[at + 1:at + 2]
            if behind and not behind[0].is_lone(','):
                escaped = printed(behind).replace('\\', '\\\\').replace('"', '\\"')
                return faults.add('IgnoreToken', span(behind), escaped)
            at += 2


class ErrorType(Definition):
    """An error type, which has a callback alone. Its `place` is that of the type."""

    NAMES = 'callback'
    NAMED = {'callback': Definition.NAMED['callback']}

    def __init__(self, run):
        super().__init__(None)
        self.place = span(run)


def read_definition(trees, faults):
    """The definition in a parenthesis, or None where its literal has a fault."""
    run, rest, _ = cut(trees)
    if not run:
        return None
    literal = one_literal(run)
    if literal is None:
        faults.add('LiteralSyntax', span(run))
        return None
    if not is_text(literal):
        faults.add('NotText', span([literal]))
        return None
    definition = Definition(literal)
    definition.read_pieces(pieces(rest), faults)
    return definition


class Options:
    """All that the `#[logos(..)]` of an enum say. Of each option that may stand once, `places` has
    the place of the last value."""

    def __init__(self, parameters, faults):
        self.faults, self.places, self.utf8 = faults, {}, True
        self.skips, self.subpatterns = [], []
        self.declared = [parameter for parameter in parameters if parameter.kind == 'type']
        self.types = {}

    def read(self, attribute):
        if attribute.group is None:
            return self.faults.add('LogosForm', attribute.span)
        for piece in pieces(attribute.group.trees):
            if piece.name is None:
                self.faults.add('InvalidNested', span(piece.run))
                continue
            name = piece.name.text
            if name not in OPTIONS:
                self.faults.add('UnknownLogos', span([piece.name]), name)
            elif piece.form != FORMS.get(name, (piece.form,))[0]:
                self.faults.add(FORMS[name][1], span([piece.name]))
            elif getattr(self, 'read_' + name)(piece, span([piece.name])) == 'stop':
                return None
        return None

    def once(self, option, code, place, former):
        """Keeps the place of a value, and says so where there was one."""
        if option in self.places:
            self.faults.add_both(code, place, self.places[option], DEFINITION_HERE)
        self.places[option] = former

    def read_crate(self, *_):
        pass

    def read_error(self, piece, name):
        if piece.form == 'assign':
            return self.once('error', 'ErrorTwice', span(piece.run), span(piece.run))
        if piece.form != 'group':
            return self.faults.add('ErrorForm', name)
        run, rest, _ = cut(piece.run)
        if not run or not is_type(run):
            self.faults.add('TypeSyntax' if run else 'ErrorEmpty', span(piece.run))
            return 'stop'
        error = ErrorType(run)
        error.read_pieces(pieces(rest), self.faults)
        return self.once('error', 'ErrorTwice', span(piece.run), error.place)

    def read_export_dir(self, piece, name):
        place, literal = span(piece.run), one_literal(piece.run)
        if literal is None or not is_text(literal):
            return self.faults.add('LiteralSyntax', place)
        if literal.form == 'bytes':
            return self.faults.add('ExportBytes', place)
        return self.once('export', 'ExportTwice', place, place)

    def read_extras(self, piece, name):
        return self.once('extras', 'ExtrasTwice', span(piece.run), span(piece.run))

    def read_skip(self, piece, name):
        if piece.form == 'literal':
            if is_text(piece.run[0]):
                self.skips.append(Definition(piece.run[0]))
            else:
                self.faults.add('NotText', span(piece.run))
        elif piece.form == 'group':
            definition = read_definition(piece.run, self.faults)
            if definition is None:
                return self.faults.add('SkipGroup', span(piece.run))
            self.skips.append(definition)
        else:
            self.faults.add('SkipForm', name)
        return None

    def read_source(self, _, name):
        self.faults.add('SourceOld', name)

    def read_subpattern(self, piece, name):
        literal = one_literal(piece.run)
        if literal is None or not is_text(literal):
            return self.faults.add('LiteralSyntax', span(piece.run))
        self.subpatterns.append((piece.word, literal))
        return None

    def read_type(self, piece, name):
        parameter, place = piece.word.text, span([piece.word])
        if not piece.run or not is_type(piece.run):
            return self.faults.add('TypeSyntax', span(piece.run))
        if all(declared.name != parameter for declared in self.declared):
            return self.faults.add('NotTypeParameter', place, parameter)
        if parameter in self.types:
            self.faults.add_both('TypeTwice', place, self.types[parameter][1], ASSIGNED_HERE, parameter)
        self.types[parameter] = names_of(piece.run), span(piece.run)
        return None

    def read_utf8(self, piece, name):
        place = span(piece.run)
        if len(piece.run) != 1 or piece.run[0].kind != 'ident' or piece.run[0].text not in TRUTH:
            return self.faults.add('Utf8Value', place)
        self.once('utf8', 'Utf8Twice', place, place)
        self.utf8 = piece.run[0].text == 'true'
        return None

    def check_types(self):
        """Lists the parameters that a chain of types leads back to."""
        for parameter in self.firsts():
            met, ahead = set(), [parameter.name]
            while ahead:
                for name in self.types.get(ahead.pop(), ([], None))[0]:
                    if name not in met and any(declared.name == name for declared in self.declared):
                        met.add(name)
                        ahead.append(name)
            if parameter.name in met:
                self.faults.add('TypeHoldsItself', parameter.name_span, parameter.name)

    def firsts(self):
        """The declared parameters without those that bear a name again."""
        return [parameter for at, parameter in enumerate(self.declared)
                if all(other.name != parameter.name for other in self.declared[:at])]

    def name_untyped(self):
        """Lists the parameters without a type."""
        firsts = self.firsts()
        for parameter in self.declared:
            if parameter not in firsts or parameter.name not in self.types:
                self.faults.add('NoConcreteType', parameter.name_span, parameter.name)
