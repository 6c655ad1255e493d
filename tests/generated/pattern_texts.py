"""Makes the texts of patterns and literals."""

from tables import table

texts = table('pattern_texts')


class PatternMaker:
    """Makes patterns by the random numbers that it is given. `names` are those of subpatterns."""

    def __init__(self, random):
        self.random, self.names, self.turn = random, [], 0

    def chance(self, of):
        return self.random.random() < of

    def pick(self, choices):
        return self.random.choice(choices)

    def next_wrong(self, choices):
        """One of the wrong forms. They come by turns, so that some hundred sources have them
        all."""
        self.turn += 37
        return choices[self.turn % len(choices)]

    def atom(self, depth):
        kind = self.random.random()
        if kind < 0.5 or depth == 0:
            return self.pick(texts.LETTERS[:6]) if kind < 0.4 else self.pick(texts.ESCAPES) if kind < 0.45 else self.pick(texts.CLASSES)
        if kind < 0.55:
            return self.pick(texts.WIDE)
        if kind < 0.64:
            return self.pick(texts.ASCII)
        if kind < 0.74 and self.names:
            return f'(?&{self.pick(self.names)})'
        return self.pick(['(', '(?:', '(?:', '(?<n>' if depth == 2 else '(?:', '(?i:']) + self.branches(depth - 1) + ')'

    def branches(self, depth):
        return '|'.join(self.branch(depth) for _ in range(self.pick([1, 1, 1, 2, 3] if depth else [1, 1, 2])))

    def branch(self, depth):
        out = ''
        for _ in range(self.pick([1, 2, 2, 3])):
            atom = self.atom(depth)
            out += atom + (self.pick(texts.OPERATORS) if self.chance(0.25) and not atom.startswith('(?-u)') and not atom.startswith('(?i)') else '')
        return out

    def pattern(self):
        """A pattern that no rule of the grammar refuses."""
        text = self.pick(texts.LETTERS[:6]) + self.branches(2) if self.chance(0.7) else self.branches(2)
        return text + self.pick(texts.LOOKS) if self.chance(0.06) else text

    def word(self):
        return ''.join(self.pick(texts.LETTERS) for _ in range(self.pick([1, 1, 2, 3]))) + ('é' if self.chance(0.05) else '')

    def faulty_pattern(self):
        text = self.next_wrong(texts.FAULTY if self.chance(0.4) else texts.STRANGE)
        return self.pick(texts.LETTERS) + text if self.chance(0.2) and not text.startswith('*') else text


class LiteralMaker(PatternMaker):
    def literal(self, text):
        """A literal with this value, as text or as bytes, with quotes of any kind."""
        if not text.isascii() or self.chance(0.85):
            prefix, form = '', 'str'
        else:
            prefix, form = 'b', 'bytes'
        if self.chance(0.4) and '\r' not in text:
            marks = self.pick(['', '', '#', '##'])
            marks = marks + '#' if '"' + marks in text else marks
            return f'{prefix}r{marks}"{text}"{marks}'
        body = ''.join(self.spelled(sign, form) for sign in text)
        suffix = 'suffix' if self.chance(0.02) else ''
        return f'{prefix}"{body}"{suffix}'

    def spelled(self, sign, form):
        short = {'\\': '\\\\', '"': '\\"', '\n': self.pick(['\\n', '\n', '\r\n']), '\r': '\\r'}.get(sign, sign)
        if self.chance(0.95):
            return short
        wide = [f'\\u{{{ord(sign):x}}}', f'\\u{{{ord(sign):06X}}}', short + '\\\n  '] if form == 'str' else [short + '\\\r\n\t']
        return self.pick(wide + ([f'\\x{ord(sign):02X}'] if ord(sign) < 128 else []))
