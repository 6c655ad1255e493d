#!/usr/bin/env python3
"""Looks for words that this repository does not use, for the form of comments, and for the homes of
words: words.py

Read for words are the comments and the names in `src`, `specs` and `proofs` of each crate, the
names of these files, the sentences of its wrong bodies, the comments of tests/calls, of the
packages in `rust` and of the examples, and the pages that people read first. Quoted text is left
out, and so are blocks of code on pages. `docs/GLOSSARY.md` has the words that are not used, with
their replacements; each of them has its patterns here. Each word of that page has a home, which
must exist.

Comments have a form, too. In a crate there is a blank line after `# Errors`, and after the first
comment of a file in `src`; "if memory runs out" where memory can; and in `specs` a capital letter
first and a full stop last. The docstring of a function begins with a verb in the third person, and
its first paragraph ends with a full stop; a law, which has no body, states a fact. A function
`push_*` appends. In all files, also in scripts, rows and proofs, a comment has at most 100 columns.

Each crate and each page counts as one for its words, each crate as one for its form, the proofs of
each crate and the other files of each folder as one for the width of their comments, and each home
as one. The last line is `words: N passed, M failed`."""
import collections
import io
import os
import re
import sys
import tokenize

from common import ROOT, has_option, listed, read

GLOSSARY = "docs/GLOSSARY.md"
# The pages outside of `docs`, `rust` and `examples` that are read for words.
PAGES = ("README.md", "CONTRIBUTING.md", "CHANGELOG.md", "tests/README.md", "bench/README.md", "crates/README.md")
# With fewer that pass, files or rows were lost, or are no longer read.
LEAST = 400
COLUMNS = 100
# The endings of other files that have comments, of those among them that begin with `//`, and the
# names of lists that have some.
SLASHED = (".rt", ".rt.in", ".rs", ".c")
COMMENTED = (*SLASHED, ".antt", ".py", ".sh", ".rows", ".sed")
LISTS = (".ci/run", "crates.txt", "tests/parts")
# Each entry of the glossary's last table: the words in a name, and the pattern in a sentence.
UNUSED = {
    "told, tell": (["told", "tell", "tells", "telling", "teller", "tellers"], r"\b(?:told|tells?|telling|tellers?)\b"),
    "said, for what was read": (["said", "unsaid"], r"\bsaid\b"),
    "say, for state": (["say", "says"], r"\b(?:says|say)\b"),
    "misfit": (["misfit", "misfits"], r"\bmisfits?\b"),
    "behind, for after": (["behind"], r"\bbehind\b(?! (?:a |the )?(?:reference|pointer)s?\b)"),
    "kept, as a name": ([], r"\bwhat is kept\b|\bthe kept\b(?! [a-z])"),
    "list, for report": (
        ["lister", "listers"],
        r"^Lists\b|\bwhich (?:is|are|was|were) listed\b|\bfaults? (?:is|are|was|were) listed\b"
        r"|\blists? (?:its|their|the|a|an|no|one|all|each) faults?\b|\bfaults (?:that )?(?:\w+ )?(?:lists?|listed)\b",
    ),
    "just, for exactly": ([], r"\bjust\b"),
    "place": (["place", "places"], r"(?<=.)(?<!\bin )(?<!\bin its )(?<!\bin their )(?<!\btakes the )(?<!\btook the )\bplaces?\b"),
    "chart": (["chart", "charts"], r"(?<!\bflow )\bcharts?\b"),
    "words, for arguments": ([], r"\bwords? (?:asks?|requests?|of (?:a|the) (?:command|program|call)|after the program)\b|\bcommand'?s? words\b"),
    "ask, for call": (["ask", "asks"], r"\b(?:ask|asks|asked|asking)\b"),
    "give, for return": (["give", "gives", "gave"], r"\b(?:gives|gave)\b|\b(?:they|it|calls?|shapes|tables|files|that|which|who|not) give\b"),
    "stand, for be": (["stand", "stands", "stood"], r"\b(?:stands?|stood|standing)\b"),
    "go on, for continue": ([], r"\b(?:go|goes|went|going) on\b"),
    "hand on, for re-export": ([], r"\bhand(?:s|ed|ing)? (?:\w+ )?on\b"),
    "mend, cure, for fix": (["mend", "mends", "mended"], r"\b(?:mend(?:s|ed|ing)?|cure[sd]?)\b"),
    "try, for match attempt": (["tries", "tried"], r"\b(?:a|an|the|each|its|that|one|no|every|next|last) try\b|\b(?:the|its|their|of|all|these|more|many) tries\b|^Tries\b"),
    "look, for look-around": ([], r"\b(?:a|the|each|no|one|some|its) look\b(?!-)|\blooks (?:hold|are|of)\b"),
    "believe, for trust": ([], r"\bbeliev\w+"),
    "status, for exit status": ([], r"(?<=.)(?<!\bexit )\bstatus(?:es)? \d"),
    "what, for a thing": (
        [],
        r"\bwhat (?:(?:is|are|was|were) (?:no|left|made|kept|read|written|done|known|found|given|used|needed|wanted|to|in|of|not|there|printed|shown|meant|proved|lost)"
        r"|there|stays?|follows|remains|becomes? of|belongs|opens|(?:they|it) (?:has|have) of)\b|\b[Dd]o(?:es)? what\b|\b(?:all|but|than|of|from|with|by|like) what\b",
    ),
    "so many": ([], r"\bso (?:many|much)\b(?! that\b)"),
    "the same, without its other": ([], r"^The same\b(?! \w+ (?:as|that)\b)(?= (?:of|for|in|on|by|with|so|again|holds)\b|[.,:;])|(?<!are )(?<!is )(?<!be )(?<!remain )(?<!stay )\bthe same(?=[.;:])"),
    "each, at the end": ([], r"\b(?:an?|one) (?:\w+ ){1,3}(?<!for )(?<!of )(?<!in )each(?=[.,;:])"),
    "that there is not": ([], r"\bthat there (?:is|are|was|were) not\b|\bthat (?:is|are) (?:none|no)\b(?! (?:longer|more|greater|less|part|other))"),
    "who, without a person": ([], r"^Who\b|(?<=[.;] )Who\b|\bwhoever\b|\b(?:for|to|from|of|and|but) who\b"),
    "else, for otherwise": ([], r"\b(?:and|,) else\b"),
    "reached, work, as names of types": ([], r"(?!)"),
}
# The ends of helps that `logos_help` prints and `docs/FAULTS.md` repeats.
MESSAGES = ("again what may stand there", "for what gives no token")
# The comments of crates have no "what": they name the thing.
IN_COMMENTS = {"what, for a thing": re.compile(r"\bwhat\b", re.I)}
# The entries for which proofs are not read: their names of facts, and their lists.
NOT_IN_PROOFS = {"kept, as a name", "list, for report"}
# The file in `rust` that a program prints.
MADE = {"rust/rattle-std/src/crates/unicode_tables.rs"}
WHOLE_NAMES = {"kept": "kept, as a name", "Reached": "reached, work, as names of types", "Work": "reached, work, as names of types"}
# Names that users of the library know, and those of the standard library and of its contracts.
PUBLIC = {
    "telling", "Telling", "from_gives", "next_gives", "into_iter_gives", "write_str_gives", "eqb_tells", "leb_tells", "tells_all_ascii_digits",
    "told",
}
# Names of the laws of a run, which users of the library call.
LAWS = {"RunsGoOver", "RunsGoLater", "ItemsGoOver", "runs_go_over", "runs_go_later", "items_go_over"}
# Pairs of words in names that are not used.
NAME_PAIRS = {("go", "on"): "go on, for continue", ("goes", "on"): "go on, for continue", ("going", "on"): "go on, for continue",
              ("so", "many"): "so many", ("hand", "on"): "hand on, for re-export", ("handed", "on"): "hand on, for re-export"}
NAME_WORDS = {word: entry for entry, (words, _) in UNUSED.items() for word in words}
SENTENCES = {entry: re.compile(pattern, re.I if "^" not in pattern else 0) for entry, (_, pattern) in UNUSED.items()}
NAME = re.compile(r"[A-Za-z_][A-Za-z0-9_]*")
FILE = re.compile(r"\.(?:rs|sh|py|rows|txt|toml)$")
PART = re.compile(r"[A-Z]?[a-z0-9]+|[A-Z]+(?![a-z])")
# A text, a byte text, a raw text, a character, or a comment of a source file.
RATTLE = re.compile(r'(?P<comment>//[^\n]*)|b?r(?P<hashes>#*)".*?"(?P=hashes)|b?"(?:\\.|[^"\\])*"|b?\'(?:\\[^\n]*?|[^\\\n])\'', re.S)
DEFINITION = re.compile(r'(?P<comment>--[^\n]*)|"(?:\\.|[^"\\])*"', re.S)
LISTS_A_FAULT = re.compile(r"\bfn (list_\w+)")


def in_name(name, listing):
    """Yields the entry of each word in a name that is not used."""
    if name in PUBLIC or name in LAWS:
        return
    if name in WHOLE_NAMES:
        yield WHOLE_NAMES[name]
    if name in listing:
        yield "list, for report"
    parts = [part.lower() for part in PART.findall(name)]
    for part in parts:
        if part in NAME_WORDS:
            yield NAME_WORDS[part]
    for pair in zip(parts, parts[1:]):
        if pair in NAME_PAIRS:
            yield NAME_PAIRS[pair]


def in_sentence(text, patterns=SENTENCES):
    """Yields the entry of each word in a line of text that is not used."""
    for entry, pattern in patterns.items():
        for _ in pattern.finditer(text):
            yield entry


def in_code(path, listing):
    """Yields the line and the entry of each word in a file of a crate that is not used."""
    text = read(path)
    form = RATTLE if path.endswith((".rt", ".rt.in")) else DEFINITION
    at = 0
    for it in [*form.finditer(text), None]:
        line = text.count("\n", 0, at) + 1
        for number, code in enumerate(text[at : it.start() if it else None].split("\n"), line):
            for name in NAME.findall(code):
                yield from ((number, entry) for entry in in_name(name, listing))
        if it and it["comment"]:
            number = text.count("\n", 0, it.start()) + 1
            comment = it["comment"].lstrip("/!- ")
            words, names = apart(comment)
            yield from ((number, entry) for entry in in_sentence(words, {**SENTENCES, **IN_COMMENTS}))
            yield from ((number, entry) for name in names for entry in in_name(name, listing))
        at = it.end() if it else at


def apart(line):
    """Returns a line without its text in backticks and messages, and the names in backticks that
    are not files of scripts or of Rust."""
    rest = re.sub(r"`[^`]*`", "`", line)
    for message in MESSAGES:
        rest = rest.replace(message, "")
    return rest, [name for code in re.findall(r"`([^`]*)`", line) if not FILE.search(code) for name in NAME.findall(code)]


def in_page(path, listing):
    """Yields the line and the entry of each word on a page that is not used."""
    fenced = False
    for number, line in enumerate(read(path).split("\n"), 1):
        if path == GLOSSARY and line == "## Words that are not used":
            return
        if line.startswith("```"):
            fenced = not fenced
        elif not fenced and not line.startswith("#"):
            words, names = apart(line)
            yield from ((number, entry) for entry in in_sentence(words))
            yield from ((number, entry) for name in names for entry in in_name(name, listing))


def below(folder, endings):
    """Returns the files in a folder that have one of the endings."""
    found = []
    for room, rooms, files in os.walk(f"{ROOT}/{folder}"):
        rooms[:] = [name for name in rooms if name != "out"]
        found += [os.path.relpath(f"{room}/{name}", ROOT) for name in files if name.endswith(endings)]
    return sorted(found)


def units():
    """Returns the files of each crate, and each page by itself."""
    found = {}
    for name in sorted(os.listdir(f"{ROOT}/crates")):
        found[name] = below(f"crates/{name}/src", ".rt") + below(f"crates/{name}/specs", ".antt")
    found["tests/calls"] = below("tests/calls/src", ".rt.in")
    for path in [*PAGES, *below("docs", ".md"), *below("rust", ".md"), *below("examples", ".md")]:
        found[path] = [path]
    return found


def further_units():
    """Returns further files that are read for words only: the proofs and the wrong bodies of each
    crate, the packages in `rust`, and each example."""
    found = {}
    for name in sorted(os.listdir(f"{ROOT}/crates")):
        found[f"{name}/proofs"] = below(f"crates/{name}/proofs", ".antt")
        found[f"{name}/must-fail"] = below(f"crates/{name}/must-fail", ".md")
    for room in ("rust", "examples"):
        for name in sorted(os.listdir(f"{ROOT}/{room}")):
            if os.path.isdir(f"{ROOT}/{room}/{name}"):
                paths = below(f"{room}/{name}", (".rs", ".rt.in"))
                found[f"{room}/{name}"] = [path for path in paths if path not in MADE and "/target/" not in path]
    return {unit: paths for unit, paths in found.items() if paths}


def in_comments(path):
    """Yields the line and the entry of each word in a Rust file's comments that is not used."""
    text = read(path)
    for it in RATTLE.finditer(text):
        if it["comment"]:
            words, _ = apart(it["comment"].lstrip("/! "))
            number = text.count("\n", 0, it.start()) + 1
            yield from ((number, entry) for entry in in_sentence(words, {**SENTENCES, **IN_COMMENTS}))


def unused(path, listing):
    """Yields the line and the entry of each word in a file, or in its name, that is not used."""
    if path.endswith(".md"):
        yield from in_page(path, listing)
    elif path.startswith(("rust/", "examples/")):
        yield from in_comments(path)
    elif "/proofs/" in path:
        yield from ((line, entry) for line, entry in in_code(path, listing) if entry not in NOT_IN_PROOFS)
    else:
        for name in path.split("/")[2:]:
            yield from ((0, entry) for entry in in_name(name.split(".")[0], listing))
        yield from in_code(path, listing)


def python_comments(text):
    """Yields the first and the last line of each comment and each docstring of a script."""
    begins = True
    for token in tokenize.generate_tokens(io.StringIO(text).readline):
        if token.type == tokenize.COMMENT or begins and token.string.startswith('"""'):
            yield token.start[0], token.end[0]
        if token.type not in (tokenize.NL, tokenize.COMMENT):
            begins = token.type in (tokenize.INDENT, tokenize.DEDENT, tokenize.NEWLINE)


def comments(path):
    """Yields the line number of each comment of a file that stands on lines of its own, and the
    text of the line."""
    text = read(path)
    lines = text.split("\n")
    if path.endswith(".py"):
        for first, last in python_comments(text):
            yield from ((at, lines[at - 1]) for at in range(first, last + 1))
        return
    if path.endswith(SLASHED) or path.endswith(".antt"):
        form = DEFINITION if path.endswith(".antt") else RATTLE
        found = [it.start() for it in form.finditer(text) if it["comment"]]
    else:
        found = [it.start() for it in re.finditer(r"^ *# \w", text, re.M)]
    for start in found:
        at = text.count("\n", 0, start)
        if not text[text.rfind("\n", 0, start) + 1 : start].strip():
            yield at + 1, lines[at]


def width_faults(path):
    """Yields the line of each comment that is too wide, and that it is."""
    for number, line in comments(path):
        if len(line) > COLUMNS and " " in line.strip().lstrip("#/!- "):
            yield number, f"more than {COLUMNS} columns"


def block_faults(numbers, lines):
    """Yields the faults of comments of `specs`: of their first letters and their full stops."""
    for number in numbers:
        text = lines[number - 1].strip()
        if number - 1 not in numbers and re.match(r"-- [a-z]", text):
            yield number, "no capital letter first"
        if number + 1 in numbers:
            continue
        first = number
        while first - 1 in numbers:
            first -= 1
        if re.match(r"-- [A-Z0-9]", lines[first - 1].strip()) and not re.search(r"[.:?]$", text):
            yield number, "no full stop last"


def docstring_faults(lines):
    """Yields the faults of the docstrings of functions."""
    for at, line in enumerate(lines):
        name = re.match(r"\s*(?:pub(?:\([^)]*\))? )?(?:const )?fn (\w+)", line)
        if not name:
            continue
        end = at
        while re.match(r"\s*#\[", lines[end - 1]):
            end -= 1
        first = end
        while lines[first - 1].strip().startswith("///"):
            first -= 1
        words = " ".join(it.strip()[3:].strip() or "\n" for it in lines[first:end]).split("\n")[0].split()
        if not words:
            continue
        if not words[-1].endswith("."):
            yield first + 1, "no full stop after the first paragraph"
        body = next((it.strip() for it in lines[at:] if it.strip() in ("{", "{}") or it.endswith(") {")), "")
        if not words[0].rstrip(",").endswith("s") and body != "{}":
            yield first + 1, f"no verb in the third person: {words[0]}"
        if name[1].startswith("push_") and words[0] != "Appends":
            yield first + 1, f"a function push_* appends: {words[0]}"


def form_faults(path):
    """Yields the line of each comment of a file of a crate that has not the form, and why."""
    lines = read(path).split("\n")
    yield from width_faults(path)
    numbers = dict(comments(path))
    if path.endswith(".antt"):
        yield from block_faults(numbers, lines)
        return
    first = next((at for at, line in enumerate(lines) if not line.startswith("//!")), 0)
    if 0 < first < len(lines) and lines[first]:
        yield first + 1, "no blank line after the first comment"
    for number, line in numbers.items():
        if line.strip() == "/// # Errors" and lines[number].strip() != "///":
            yield number, "no blank line after # Errors"
        if re.search(r"if there is not enough memory|when memory runs out", line):
            yield number, "if memory runs out"
    if not path.endswith("/laws.rt"):
        yield from docstring_faults(lines)


def others(found):
    """Returns the other files of the repository that have comments: those of each room at the top,
    and the proofs of each crate."""
    known = {path for paths in found.values() for path in paths}
    rooms = collections.defaultdict(list)
    for path in listed():
        if (path.endswith(COMMENTED) or path in LISTS) and path not in known:
            parts = path.split("/")
            rooms["/".join(parts[:2]) if parts[0] in ("crates", "tests") else parts[0]].append(path)
    return rooms


def homes():
    """Yields each row of the glossary that has no home, and None for each that has one."""
    page = read(GLOSSARY)
    for word, home in re.findall(r"^\| ([^|]+) \| [^|]+ \| ([^|]+) \|$", page.split("## Verbs")[0], re.M):
        if word in ("Word", "---"):
            continue
        given = re.fullmatch(r"(?:`(\w+)`, )?`([\w./]+)`", home)
        path = given and (f"crates/{given[2]}" if given[1] else given[2])
        if not given or not os.path.exists(f"{ROOT}/{path}"):
            yield f"{word}: no such home: {home}"
        elif given[1] and not re.search(rf"\b(?:struct|enum|fn|type|trait|record|data|abbrev|pub|use) (?:pub )?[^\n]*\b{given[1]}\b", read(path)):
            yield f"{word}: {path} has no {given[1]}"
        else:
            yield None
    stated = set(re.findall(r"^\| ([^|]+) \| [^|]+ \|$", page.split("## Words that are not used")[1], re.M)) - {"Not used", "---"}
    for entry in sorted(stated ^ set(UNUSED)):
        yield f"{entry}: not both in {GLOSSARY} and in this script"


def word_faults(found):
    """Yields for each crate and page the words in it that are not used."""
    listing = {name for paths in found.values() for path in paths if path.endswith((".rt", ".rt.in"))
               for name in LISTS_A_FAULT.findall(read(path))}
    for paths in found.values():
        yield [f"{path}:{line}: {entry}" for path in paths for line, entry in unused(path, listing)]


def main():
    has_option()
    found = units()
    checked = [*word_faults({**found, **further_units()})]
    for crate in (it for it in found if "." not in it):
        checked.append([f"{path}:{line}: {why}" for path in found[crate] for line, why in form_faults(path)])
    for paths in others(found).values():
        checked.append([f"{path}:{line}: {why}" for path in paths for line, why in width_faults(path)])
    checked += [[missing] if missing else [] for missing in homes()]
    for faults in checked:
        print("".join(f"words: {line}\n" for line in faults), end="")
    passed = sum(not faults for faults in checked)
    failed = len(checked) - passed
    print(f"words: {passed} passed, {failed} failed")
    sys.exit(1 if failed or passed < LEAST else 0)


main()
