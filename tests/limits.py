#!/usr/bin/env python3
"""Meets each limit of sources and patterns, and passes it by one, in both shapes: what is within a
limit is accepted, what is beyond it is refused with that limit at its place. Then it cuts a source
off at each byte: each proper beginning is refused with one fault, by `lex` and by `strip`.

  limits.py LOGOS"""
import re
import sys

from checks import Checks, write

SHAPES = ("state_machine", "tailcall")
TOKENS = "token 0 0..1\ntoken 0 1..2"
ENUM = 'enum E { #[token("a")] A }'
MOST_BYTES = 16777216


def regex(pattern, more=""):
    """Returns the enum of one variant with this regex."""
    return f'enum E {{ #[regex("{pattern}"{more})] A }}'


def grouped(count, inside):
    return regex("(" * count + inside + ")" * count)


def deep(count):
    """Returns an enum with a number in parentheses behind a variant."""
    return f'enum E {{ #[token("a")] A = {"(" * count}1{")" * count} }}'


def referred(count):
    return f'enum E {{ #[token("a")] A({"&" * count}u8) }}'


def passed(place, limit):
    """Returns the message about a limit that was passed at a place."""
    return f"{place} {limit}: limit {limit} passed"


def empty_match(place, count):
    shown = "(" * count + "a*" + ")" * count
    return f'{place} EmptyMatch: The pattern #[regex("{shown}")] ::A can match the empty string, which is unsupported by logos.'


def equal_tokens(count):
    """Returns the enum of tokens with one text, and its faults: each token names all others."""
    fields = [f'#[token("a")] V{number}' for number in range(count)]
    leaves = [field.replace(" ", " ::") for field in fields]
    faults, at = [], len("enum E { #[token(")
    for leaf, field in zip(leaves, fields):
        others = "".join(f"\\n  {other}" for other in leaves if other != leaf)
        text = f"The pattern {leaf} can match simultaneously with the following variants:{others}"
        faults.append(f"{at}..{at + 3} Disambiguation: {text}\\n\\n(all at the priority 2)")
        at += len(field) + 2
    return f"enum E {{ {', '.join(fields)} }}", "\n".join(faults)


GREAT = "(?:(?:a{4294967295}){4294967295}){4294967295}"
HOLDING = '#[logos(type T = Vec<U>, type U = Option<T>)] enum E<T, U> { #[token("a")] A(T) }'
HELD = "53..54 TypeHoldsItself: Type parameter T holds itself\n56..57 TypeHoldsItself: Type parameter U holds itself"
# A name, a source, and the items that it has to find in `aa`, or the complaint.
CASES = [
    ("127 delimiters", deep(127), TOKENS, ""),
    ("128 delimiters", deep(128), "", passed("154..155", "LimitTokenNesting")),
    ("127 references", referred(127), TOKENS, ""),
    ("128 references", referred(128), "", passed("25..155", "LimitTypeNesting")),
    ("250 groups", grouped(250, "a"), TOKENS, ""),
    ("251 groups", grouped(251, "a"), "", passed("17..522", "LimitPatternNesting")),
    ("249 groups around a repetition", grouped(249, "a*"), "", empty_match("17..519", 249)),
    ("250 groups around a repetition", grouped(250, "a*"), "", passed("17..521", "LimitPatternNesting")),
    ("16777216 bytes", ENUM.ljust(MOST_BYTES), TOKENS, ""),
    ("16777217 bytes", ENUM.ljust(MOST_BYTES + 1), "", passed("0..16777217", "LimitSource")),
    ("a tree of size 1048576", regex("[x&&y]a{1048575}"), "error 0..1\nerror 1..2", ""),
    ("a tree of size 1048577", regex("[x&&y]a{1048576}"), "", passed("0..41", "LimitSize")),
    ("a repetition of nothing", regex("[x&&y]{4294967295}"), "", passed("0..43", "LimitSize")),
    ("65000 letters", regex("a{65000}"), "error 0..2", ""),
    ("100 characters", regex(".{100}"), "error 0..2", ""),
    ("70000 letters", regex("a{70000}"), "", passed("0..33", "LimitStates")),
    ("a great repetition with a priority", regex(GREAT, ", priority = 1"), "", passed("0..84", "LimitSize")),
    ("a letter or a great repetition", regex(f"x|{GREAT}"), "", passed("0..72", "LimitSize")),
    ("types that hold each other", HOLDING, "", HELD),
]
# The same with the KiB of memory and the seconds that it may take. What repetitions take grows with
# their states: the first of these took 25 seconds and 2.7 GB when each block of states was looked
# at as often as it was split.
SMALL = [
    ("at most 12800 letters", regex("[a-z]{1,12800}x"), "error 0..2", "", 140000, 10),
    ("4000 optional letters", regex("(?:a?){4000}b"), "error 0..2", "", 120000, 10),
    ("at most 1600 characters", regex(".{0,1600}z"), "error 0..2", "", 100000, 10),
    ("300 optional characters", regex(r"(?:\\w?){300}!"), "", passed("0..39", "LimitStates"), 250000, 20),
    ("nested counts", regex("((?:_*c{3,5}){75}|_)*0"), "", passed("0..47", "LimitStates"), 130000, 20),
    ("1000 equal tokens", equal_tokens(1000)[0], "", equal_tokens(1000)[1], 80000, 10),
]
# Sources that outgrow any memory; the program has little of it here. Each of the subpatterns names
# the one in front of it twice, and each of the types has the next one in it twice.
SUBPATTERNS = "".join(f'#[logos(subpattern s{it} = "(?&s{it - 1})(?&s{it - 1})")]\n' for it in range(1, 65))
TYPES = "".join(f"#[logos(type T{it} = (T{it + 1}, T{it + 1}))]\n" for it in range(60))
DOUBLING = {
    "subpatterns that double": f'#[logos(subpattern s0 = "a")]\n{SUBPATTERNS}{regex("(?&s64)")}',
    "types that double": f'#[logos(type T60 = u8)]\n{TYPES}enum E<{", ".join(f"T{it}" for it in range(61))}> {{ #[token("a")] A(T0) }}',
}
WHOLE = '#[derive(Debug, Logos, serde::Serialize)] enum E { #[token("a")] A }'
STRIPPED = "# [ derive ( Debug , serde :: Serialize ) ] enum E { A }"
LITTLE, OUT_OF_MEMORY = 100000, "out of memory"


def gives(checks, name, source, out, err, **limits):
    """Checks what a source gives in both shapes."""
    checks.case = name
    write("source", source)
    status = 3 if err == OUT_OF_MEMORY else 1 if err else 0
    for shape in SHAPES:
        checks.gives(status, err, "lex", "source", "input", "--shape", shape, out=out, **limits)


def cut_off(checks, length):
    """Checks that a beginning of the whole is refused with one fault, in both shapes and when it is
    stripped."""
    write("source", WHOLE[:length])
    commands = [["lex", "source", "input", "--shape", shape] for shape in SHAPES]
    checks.case, first = f"the first {length} bytes", None
    for words in [*commands, ["strip", "source"]]:
        ran = checks.run(*words)
        is_fault = re.fullmatch(rb"\d+\.\.\d+ [A-Za-z]+: .+\n", ran.stderr)
        checks.need(ran.returncode == 1 and not ran.stdout, f"not refused by {words}")
        checks.need(is_fault, f"{words} complains of more or less than one fault")
        first = first or ran.stderr
        checks.check(ran.stderr == first, f"{words} complains of another fault")


def main(program):
    checks = Checks("limits", program)
    write("input", "aa")
    for case in CASES:
        gives(checks, *case)
    for *case, memory, seconds in SMALL:
        gives(checks, *case, memory=memory, seconds=seconds)
    for name, source in DOUBLING.items():
        gives(checks, name, source, "", OUT_OF_MEMORY, memory=LITTLE)
    for length in range(len(WHOLE)):
        cut_off(checks, length)
    checks.case = "the whole"
    write("source", WHOLE)
    checks.gives(0, "", "strip", "source", out=STRIPPED)
    checks.end(f"{checks.passed} answers are as they have to be")


if __name__ == "__main__":
    main(sys.argv[1])
