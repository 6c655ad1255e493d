"""Makes sources of enums, of the kinds in `KINDS`. `keywords`, `one_regex`, `letters_up_to` and
`optional_letters` are there as sources of flex and re2c, too."""
import itertools
import os
import random
import tomllib

with open(f"{os.path.dirname(os.path.realpath(__file__))}/enums.toml", "rb") as it:
    LISTS = tomllib.load(it)
LETTERS = "abcdefghijklmnopqrstuvwxyz"


def long_words(rng, count):
    """Words of three to nine letters, no two of them equal."""
    words = {}
    while len(words) < count:
        words["".join(rng.choices(LETTERS, k=rng.randrange(3, 10)))] = None
    return list(words)


def short_words(rng, count):
    """The words of two letters, then those of three, then those of four, as many as are wanted, in
    any order."""
    lengths = (itertools.product(LETTERS, repeat=length) for length in (2, 3, 4))
    words = ["".join(word) for word in itertools.islice(itertools.chain.from_iterable(lengths), count)]
    rng.shuffle(words)
    return words


def tokens(words):
    return [f'    #[token("{word}")]\n    V{number},\n' for number, word in enumerate(words)]


def keywords(rng, count):
    return tokens(long_words(rng, count))


def beside_names(rng, count):
    rest = ['    #[regex("[0-9]+")]\n    Number,\n', '    #[regex("[A-Z_][A-Z_0-9]*")]\n    Name,\n']
    return tokens(long_words(rng, count)) + rest


def short(rng, count):
    return tokens(short_words(rng, count))


def one_regex(rng, count):
    return [f'    #[regex("{"|".join(long_words(rng, count))}")]\n    Word,\n']


def repeated(rng, count):
    return [f'    #[regex("a{{{count}}}")]\n    Letters,\n']


def plain(rng, count):
    return ['    #[token("a")]\n    A,\n'] + [f"    V{number},\n" for number in range(count - 1)]


def regexes(patterns):
    greedy = {pattern: ", allow_greedy = true" if "[^\\n]*" in pattern else "" for pattern in patterns}
    return [f'    #[regex(r#"{pattern}"#{greedy[pattern]})]\n    R{number},\n' for number, pattern in enumerate(patterns)]


def unicode_names(rng, count):
    """Keywords, and identifiers of all scripts."""
    return tokens(long_words(rng, count)) + regexes([r"[_\p{XID_Start}]\p{XID_Continue}*"])


def sql_words(rng, count):
    return [f'    #[token("{word}", ignore(case))]\n    V{number},\n' for number, word in enumerate(long_words(rng, count))]


def sql(rng, count):
    """Keywords in any case, names in ASCII, numbers, strings, comments and operators."""
    return sql_words(rng, count) + regexes([r"[a-zA-Z_][a-zA-Z_0-9$]*", *LISTS["sql"]])


def sql_unicode(rng, count):
    """The same with names of all scripts."""
    return sql_words(rng, count) + regexes([r"[\p{XID_Start}_][\p{XID_Continue}$]*", *LISTS["sql"]])


def rust_like(rng, count):
    """The words and signs of a language like Rust, with its literals, comments, lifetimes and names
    of all scripts. The size says nothing."""
    return tokens(LISTS["rust_tokens"].split()) + regexes(LISTS["rust"])


SETS = [r"[\p{{L}}--\p{{{0}}}]", r"[\p{{L}}\p{{N}}~~\p{{{0}}}]", r"[\p{{L}}&&\P{{{0}}}]"]


def class_sets(rng, count):
    """Repeated sets of characters, each of two properties, with a number after them that keeps the
    rules apart."""
    scripts = LISTS["scripts"].split()
    return regexes([SETS[number % 3].format(scripts[number % len(scripts)]) + f"+#{number}" for number in range(count)])


def beginnings(rng, count):
    """Regexes of which many begin alike: one of twenty words, a sign, and then letters or
    digits."""
    words = long_words(rng, 20)
    ends = ["[a-z]+", "[0-9]+", "[a-z0-9]+x", "[a-f]{2,5}", "(ab|cd)+e"]
    return regexes([words[number % 20] + "-" + "xy"[number // 20 % 2] * (number // 40 + 1) + ends[number // 20 % 5] for number in range(count)])


def log_lines(rng, count):
    """What stands in lines of a log: dates, addresses, identifiers, paths, levels, words. The size
    says nothing."""
    levels = ["TRACE", "DEBUG", "INFO", "WARN", "ERROR", "FATAL"]
    return tokens(levels) + regexes(LISTS["log"])


def groups(rng, count):
    """Branches of one character in one alternation, inside 249 groups with a branch in front of
    each."""
    branches = "|".join("abcdefghij"[number % 10] for number in range(count - 1)) + "|ab"
    return regexes(["(?:k|" * 249 + branches + ")" * 249])


def optional_words(rng, count):
    """Optional characters in a row, and then a sign."""
    return regexes([r"(?:\w?){%d}!" % count])


def optional_letters(rng, count):
    """Optional letters in a row, and then another one."""
    return regexes(["(?:a?){%d}b" % count])


def letters_up_to(rng, count):
    """At most so many letters, of which the last is a certain one."""
    return regexes(["[a-z]{1,%d}x" % count])


def characters_up_to(rng, count):
    """At most so many characters, of which the last is a certain one."""
    return regexes([".{0,%d}z" % count])


def equal_tokens(rng, count):
    """Tokens with one text, so that all of them are ambiguous."""
    return tokens(["a"] * count)


def overlapping(rng, count):
    """Rules of the same letters, each without one of them, so that any two or more meet."""
    letters = LETTERS[:count]
    return regexes([f"[[a-{letters[-1]}]--{letter}]+" for letter in letters])


KINDS = {
    kind.__name__: kind
    for kind in (
        keywords, beside_names, short, one_regex, repeated, plain, unicode_names, sql, sql_unicode, rust_like, class_sets, beginnings, log_lines, groups,
        optional_words, optional_letters, letters_up_to, characters_up_to, equal_tokens,
        overlapping,
    )
}


def other_rules(program, kind, count):
    """Returns the rules of a kind as another program spells them."""
    if kind == "letters_up_to":
        return ['[a-z]{1,%d} "x"' % count if program == "re2c" else '[a-z]{1,%d}x' % count]
    if kind == "optional_letters":
        return ['("a"?){%d} "b"' % count if program == "re2c" else "(a?){%d}b" % count]
    words = [f'"{word}"' for word in long_words(random.Random(1), count)]
    return words if kind == "keywords" else ["|".join(words)]


def other_source(program, kind, count):
    """Returns the rules of a kind as a source of another program."""
    rules = other_rules(program, kind, count)
    head, before, after, foot = LISTS["frames"][program]
    return head + "".join(f"{rule}{before}{number + 1}{after}" for number, rule in enumerate(rules)) + foot


def source(kind, count):
    """Returns the source of an enum of a kind and a size."""
    definitions = KINDS[kind](random.Random(1), count)
    return "#[derive(Logos)]\nenum Token {\n" + "".join(definitions) + "}\n"
