"""Reads the lexers in bench/held/rules, which are enums as users write them, for the programs in
`held_rules.PRINTERS`.

These take the first of equally long matches. So tokens, which have the higher priority in Rust,
come first here, and then regexes in the order of the priorities that they name, or of 2."""
import pathlib
import re

from . import held_rules

FOLDER = pathlib.Path(__file__).parents[1] / "held/rules"
TEXT = r'(?:r(?P<hashes>#*)"(?P<raw>.*?)"(?P=hashes)|"(?P<text>[^"\\]*)")'
RULE = re.compile(rf"#\[(?P<kind>regex|token|logos)\((?:skip\(? ?)?{TEXT}(?P<words>.*?)\)*\]\n(?: *(?P<name>\w+),)?")
SPECIAL = re.compile(r"[\\.+*?()|\[\]{}^$#&\-~]")


def read(found):
    """Returns the key by which the rule of a match is sorted, its name and its regex."""
    regex, is_token = found["raw"] or found["text"], found["kind"] == "token"
    regex = SPECIAL.sub(r"\\\g<0>", regex) if is_token else regex
    priority = re.search(r"priority = (\d+)", found["words"])
    key = not is_token, -int(priority[1] if priority else 2)
    return key, found["name"] or "-", f"(?i:{regex})" if "ignore(case" in found["words"] else regex


def numbered(text):
    """Returns the number of each rule's variant, which is 0 where it is skipped, and the tree of
    its regex."""
    variants = ["-", *re.findall(r"^    (\w+),$", text, re.M)]
    found = sorted(map(read, RULE.finditer(text)), key=lambda it: it[0])
    assert len(found) == len(re.findall(r"#\[(?:regex|token|logos\(skip)", text))
    return [(variants.index(name), held_rules.compiled(regex, True, False)) for _, name, regex in found]


def source(kind, program):
    """Returns the lexer of a kind as a source of a program."""
    text = (FOLDER / f"{kind}.rs").read_text(encoding="utf-8")
    return text if program == "rust" else "\n".join(held_rules.PRINTERS[program](numbered(text))) + "\n"
