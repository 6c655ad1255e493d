"""Makes small sets of rules and all short inputs of a few letters: patterns with looks and classes
of all forms, and words that repeat."""

from itertools import product
from tables import table

LETTERS = ['a', 'b', '\\n', 'é', 'k', '-']
# Each look, as it may be written where the flag `u` is off.
LOOKS = ['$', '\\z', '(?m:$)', '(?Rm:$)', '\\b', '\\B', '(?m:^)', '(?Rm:^)', '^', '\\A', '(?m)$', '(?mR)^', '(?-m:$)']
classes = table('small_sets')
OPERATORS = ['', '', '', '*', '+', '?', '{2}', '{1,2}', '{2,}', '*?', '+?', '??', '{0,2}?']
WORDS = ['a', 'b', 'é']


def words(letters, most):
    """All words of at most so many letters, the empty one first."""
    return [''.join(parts) for count in range(most + 1) for parts in product(letters, repeat=count)]


class SmallSetMaker:
    """Makes small sets. The classes come by turns, so that some hundred sets have them all."""

    def __init__(self, random, turn):
        self.random, self.turn, self.unicode = random, turn * 7, random.random() < 0.4
        self.classes = classes.OF_BOTH + (classes.OF_CHARACTERS if self.unicode else classes.OF_BYTES)

    def pick(self, choices):
        return self.random.choice(choices)

    def next_class(self):
        self.turn += 1
        return self.classes[self.turn % len(self.classes)]

    def atom(self):
        kind = self.random.random()
        if kind < 0.3:
            look = self.pick(LOOKS)
            return f'(?-u:{look})' if self.unicode and look in ('\\b', '\\B') else f'(?:{look})'
        return self.pick(LETTERS) if kind < 0.7 else self.next_class()

    def branch(self):
        return ''.join(self.atom() + self.pick(OPERATORS) for _ in range(self.random.randrange(3)))

    def pattern(self):
        """A pattern that mostly begins with what takes a byte."""
        text = self.pick(LETTERS) if self.random.random() < 0.5 else self.next_class() if self.random.random() < 0.9 else self.atom()
        text += self.branch()
        if self.random.random() < 0.5:
            text += f'(?:{self.branch()}|{self.branch()}){self.pick(OPERATORS)}'
        return text

    def patterns(self):
        """A source of up to three patterns, mostly of different priorities."""
        kind, out = ('' if self.unicode else 'b'), ''
        for number in range(self.random.randint(1, 3)):
            text = self.pattern()
            text = text if self.unicode else text.replace('é', '\\xC3\\xA9')
            priority = f', priority = {number + 1}' if self.random.random() < 0.85 else ''
            out += f' #[regex({kind}r#"{text}"#, allow_greedy = true{priority})] A{number},'
        is_text = self.unicode and self.random.random() < 0.5
        return f'#[logos(utf8 = {str(is_text).lower()})] enum T {{{out} }}'

    def words(self):
        """A source of up to four words, some of which repeat; the first may be skipped."""
        all_words = words(WORDS, 3)[1:]
        chosen, out, head = self.random.sample(all_words, self.random.randint(1, 4)), '', ''
        for number, word in enumerate(chosen):
            repeats = self.random.random() < 0.5
            if number == 0 and self.random.random() < 0.5:
                head = f'#[logos(skip "(?:{word}){"+" * repeats}")]'
            else:
                out += f' #[regex("(?:{word})+")] A{number},' if repeats else f' #[token("{word}")] A{number},'
        return f'{head} enum T {{{out} }}'


def inputs_of_patterns(random, alone, is_text):
    """All words of three letters or bytes in one input, and some words of up to four alone, which
    end with the input."""
    letters = ['a', 'b', '\n', '\r', 'é', 'k', '-'] if is_text else ['a', 'b', '\n', '\r', '\xC3', '\xA9', 'k', '-']
    joined = ' '.join(words(letters[:5 if is_text else 6], 3) + [''.join(random.choices(letters, k=5)) for _ in range(40)])
    all_words = [joined] + [''.join(random.choices(letters, k=random.randint(1, 4))) for _ in range(alone)]
    return [text.encode('utf8' if is_text else 'latin1') for text in all_words]


def inputs_of_words(random, alone):
    """All words of four letters in one input, and some alone."""
    all_words = words(WORDS, 4)
    return [text.encode() for text in ['\n'.join(all_words)] + random.sample(all_words, alone)]
