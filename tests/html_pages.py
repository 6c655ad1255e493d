#!/usr/bin/env python3
"""Makes pages of lexers by `logos_show FILE [INPUT] --html PAGE`, parses them, and compares what
stands in them with what the other answers about the same lexer and input say.

  html_pages.py LOGOS LOGOS_SHOW

The lexers are those of examples/lexers and four others, which have patterns, callbacks and names
of files with markup, quotes and invisible characters. In each page are looked up its elements and
their nesting, headings, names of parts, identifiers and links; each item of the input with its
span, its leaf and its shown text; the first descriptions of items; each leaf, and each state with
its edges. Texts with markup must
have the elements of harmless texts. Where `chromium` is found, the pages of all lexers with all
texts, or the first bytes of the texts of others, are opened there: their elements must have the
items of `logos lex`. The pages of the pictures in docs/handbook/see.md must have the texts that the
page quotes beside them. Each of these is one count. The last line is `html_pages: N passed, M
failed`."""
import glob
import html.parser
import itertools
import json
import os
import re
import shutil
import subprocess
import sys
import tempfile
import unicodedata

ROOT = os.path.dirname(os.path.dirname(os.path.realpath(__file__)))
sys.path.insert(0, f"{ROOT}/tests/playground")
sys.path.insert(0, f"{ROOT}/tools")
from browser import Browser
from pictures import FOLDER, PICTURES

# The bytes of the largest picture.
LARGEST = 150_000
# The elements and the attributes of a page. Nothing else may occur.
ELEMENTS = {"html", "head", "meta", "title", "style", "body", "header", "h1", "h2", "p", "nav", "ul", "li", "a", "main", "section", "div", "table",
            "thead", "tbody", "tr", "th", "td", "code", "pre", "span", "i", "strong", "footer", "svg", "defs", "marker", "path", "circle", "text"}
ATTRIBUTES = {"lang", "charset", "name", "content", "id", "class", "href", "role", "tabindex", "scope", "aria-label", "aria-labelledby",
              "aria-description", "data-leaf", "data-span", "width", "height", "viewbox", "refx", "refy", "markerwidth", "markerheight", "orient", "d", "marker-end", "x", "y", "cx",
              "cy", "r"}
ALONE = {"meta"}
SHOWN = 65536
# The length of the texts with which a browser opens the pages of other lexers.
SHORT = 600
DRAWN = 60
# The number of items of a page whose descriptions are compared with other answers.
ASKED = 8
# The bytes of the descriptions of a page, nearly.
DESCRIBED = 4_194_304
LISTED = 1000
# The characters that may not stand in a page, as in tests/terminal.py: controls, formats and
# separators of lines, but for those that are seen, and LF, which ends lines of the page.
SEEN = {*range(0x600, 0x606), 0x6DD, 0x70F, 0x890, 0x891, 0x8E2, 0x110BD, 0x110CD, *range(0x13430, 0x13440), *range(0x1BCA0, 0x1BCA4),
        *range(0x1D173, 0x1D17B), 10}
NASTY = "<script>alert(1)</script> ]]> --> <!-- &amp; &#60; \"'` </pre></span> \u202eevil\u2066 \ufeff\x00\x1b[31m\u200b é 𐍈\r\tend"
HOSTILE = """use logos::Logos;

#[derive(Logos)]
#[logos(skip "[ \\n]")]
enum Hostile {
    #[token("%s", |lex| { "<script>&'\\u{202e}" })]
    First,
    #[regex("\\\\x00[<>&'\\"]+", priority = 3)]
    Second,
    #[regex("[\\u{202a}-\\u{202e}\\u{feff}\\u{0}-\\u{8}]+")]
    Third,
    #[token("]]>")]
    Fourth,
}
"""
WORDS = """#[derive(Logos)]
#[logos(skip r"[ \\n]+")]
enum Words {
    #[token("fast")]
    Fast,
    #[regex(r"\\p{XID_Start}\\p{XID_Continue}*")]
    Word,
    #[regex("[0-9]+")]
    Number,
}

#[derive(Logos)]
enum Other {
    #[token("x")]
    X,
}
"""
BYTES = """#[derive(Logos)]
#[logos(utf8 = false)]
enum Bytes {
    #[regex(b"[a-z\\xC0-\\xFF]+")]
    Word,
    #[regex(b"[\\x00-\\x20]")]
    Blank,
}
"""
# Leaves that read the same texts, and texts that none of them matches.
RIVALS = """#[derive(Logos)]
#[logos(skip " ")]
enum Rivals {
    #[token("if")]
    If,
    #[regex("[a-z]+")]
    Word,
    #[token("<")]
    Less,
    #[token("<=")]
    AtMost,
    #[token("%s")]
    Markup,
    #[regex("[<>/=&'()0-9A-Za-z]+", priority = 1)]
    Any,
    #[token("+while")]
    While,
    #[regex("\\\\+w[0-9]")]
    Numbered,
}
"""
# For each text, the leaves whose longest matches the description of its first item has, with their
# priorities, lengths and texts, and the leaf that wins, with the reason.
LONGER, HIGHER = "its match is the longest", "it has the highest priority of the longest matches"
CANDIDATES = {
    "if": ([("If", 4, 2, "if"), ("Word", 2, 2, "if"), ("Any", 1, 2, "if")], "If", HIGHER),
    "iffy x": ([("If", 4, 2, "if"), ("Word", 2, 4, "iffy"), ("Any", 1, 4, "iffy")], "Word", HIGHER),
    "if1": ([("If", 4, 2, "if"), ("Word", 2, 2, "if"), ("Any", 1, 3, "if1")], "Any", LONGER),
    "<= 1": ([("Less", 2, 1, "<"), ("AtMost", 4, 2, "<="), ("Any", 1, 2, "<=")], "AtMost", HIGHER),
    "7": None,
}
# For each text, the leaves that read its first item, an error: the read text, its end, and the
# bytes that continue it.
READERS = {
    "+whip": [("While", "+whi", "1:5", "[l]"), ("Numbered", "+w", "1:3", "[0-9]")],
    "+w": [("While", "+w", "1:3", "[h]"), ("Numbered", "+w", "1:3", "[0-9]")],
    "+": [("While", "+", "1:2", "[w]"), ("Numbered", "+", "1:2", "[w]")],
    "#": None,
}
LINES = """#[derive(Logos)]
enum Lines {
    #[regex("[^\\n]+", allow_greedy = true)]
    Line,
    #[token("\\n")]
    End,
}
"""
# A token of the same length as the one with markup, without markup.
MARKUP = "</code><script>x"
HARMLESS = "abcdefghijklmnop"
TEXTS = {
    "hostile": (HOSTILE % MARKUP, [NASTY.encode(), (MARKUP + "]]>\ufeff\x00<<" + MARKUP).encode(), b""]),
    "words": (WORDS, ["fast faster größe 12 <b> 日本 \u202e".encode(), b"fast" * 20000 + b" 1\n" + "é".encode() * 40000, b" \n"]),
    "bytes": (BYTES, [b"ab\xff\xc3 \x00\x1b<\xe9>&", bytes(range(256)), b"\xf0\x9f\x98\x80 ok"]),
    "lines": (LINES, [(NASTY + "\n" + NASTY + "\n").encode(), b"x" * 1000000 + b"\ny", ("é" * 40000 + "\n").encode()]),
}
counts = {True: 0, False: 0}


def check(is_right, what):
    """Counts, and prints what is wrong."""
    counts[bool(is_right)] += 1
    if not is_right:
        print(f"html_pages: {what}")


class Node:
    """An element with its attributes and what stands in it."""

    def __init__(self, tag, attributes):
        self.tag, self.attributes, self.parts = tag, dict(attributes), []

    def text(self):
        return "".join(it if isinstance(it, str) else it.text() for it in self.parts)

    def every(self, *tags):
        """Yields the elements in it with one of these names, in their order."""
        for it in self.parts:
            if not isinstance(it, str):
                if it.tag in tags or not tags:
                    yield it
                yield from it.every(*tags)


class Reader(html.parser.HTMLParser):
    """Reads a page, and notes what is not well formed."""

    def __init__(self):
        super().__init__(convert_charrefs=True)
        self.open, self.wrong = [Node("", [])], []

    def handle_starttag(self, tag, attributes):
        node = Node(tag, attributes)
        self.open[-1].parts.append(node)
        if len(node.attributes) != len(attributes):
            self.wrong.append(f"an attribute twice in {tag}")
        if tag not in ALONE:
            self.open.append(node)

    def handle_startendtag(self, tag, attributes):
        self.open[-1].parts.append(Node(tag, attributes))

    def handle_endtag(self, tag):
        if self.open[-1].tag == tag:
            self.open.pop()
        else:
            self.wrong.append(f"</{tag}> in {self.open[-1].tag}")

    def handle_data(self, data):
        self.open[-1].parts.append(data)

    def handle_comment(self, data):
        self.wrong.append("a comment")

    def handle_pi(self, data):
        self.wrong.append("an instruction")

    def unknown_decl(self, data):
        self.wrong.append("a declaration")


def parsed(text):
    reader = Reader()
    reader.feed(text)
    reader.close()
    if len(reader.open) != 1:
        reader.wrong.append("not all elements end")
    return reader.open[0], reader.wrong


def shown_char(c):
    """Returns a character as pages show it."""
    code = ord(c)
    if c == "\t":
        return "    "
    if code < 32:
        return chr(0x2400 + code)
    if code == 127:
        return "\u2421"
    return "\ufffd" if unicodedata.category(c) in ("Cc", "Cf", "Zl", "Zp") and code not in SEEN else c


def shown(data):
    """Returns bytes of an input as the page shows them."""
    try:
        text = data.decode()
    except UnicodeDecodeError:
        return "".join(shown_char(chr(it)) + "\n" * (it == 10) if it < 128 else f"\\x{it:02X}" for it in data)
    return "".join(shown_char(c) + "\n" * (c == "\n") for c in text)


def run(*words):
    ran = subprocess.run(words, stdin=subprocess.DEVNULL, capture_output=True)
    if ran.returncode:
        raise RuntimeError(f"{words}: status {ran.returncode}, {ran.stderr.decode()}")
    return ran.stdout


def records(*words):
    return [json.loads(line) for line in run(*words, "--json").decode().splitlines()]


def slice_of(record):
    """Returns the bytes of an item of the answer as JSON."""
    value = record["text"]
    return value.encode() if isinstance(value, str) else bytes(value)


def look_at_form(page, raw, name):
    """Looks at the elements, headings, identifiers, links and names of a page."""
    nodes = list(page.every())
    check({it.tag for it in nodes} <= ELEMENTS, f"{name}: elements {({it.tag for it in nodes}) - ELEMENTS}")
    found = {key for it in nodes for key in it.attributes}
    check(found <= ATTRIBUTES, f"{name}: attributes {found - ATTRIBUTES}")
    ids = [it.attributes["id"] for it in nodes if "id" in it.attributes]
    check(len(ids) == len(set(ids)), f"{name}: an identifier twice")
    links = [it.attributes["href"] for it in nodes if "href" in it.attributes]
    check(links and all(it.startswith("#") and it[1:] in ids for it in links), f"{name}: a link leads nowhere")
    named = [it.attributes["aria-labelledby"] for it in nodes if "aria-labelledby" in it.attributes]
    check(named and set(named) <= set(ids), f"{name}: a part has no name")
    heads = [it.tag for it in nodes if re.fullmatch(r"h\d", it.tag)]
    check(heads[0] == "h1" and heads.count("h1") == 1 and set(heads[1:]) == {"h2"}, f"{name}: headings {heads}")
    body = [it for it in page.every("body")][0]
    check([it.tag for it in body.parts if not isinstance(it, str)] == ["header", "main", "footer"], f"{name}: landmarks")
    check(all(it.attributes.get("aria-label") for it in nodes if it.attributes.get("role") in ("region", "group")), f"{name}: a part without a label")
    for table in page.every("table"):
        check(all(it.attributes.get("scope") in ("col", "row") for it in table.every("th")), f"{name}: headings of a table")
    values = [value or "" for it in nodes for key, value in it.attributes.items() if key != "aria-description"] + [it.text() for it in page.every("style")]
    check(not any(re.search(r"//|url\((?!#head\))|@import|javascript:", it) for it in values), f"{name}: something from elsewhere")
    hidden = {c for c in raw if unicodedata.category(c) in ("Cc", "Cf", "Zl", "Zp") and ord(c) not in SEEN}
    check(not hidden, f"{name}: characters {sorted(hidden)} stand in the page")
    check("prefers-color-scheme: dark" in raw and "@media print" in raw and 'name="viewport"' in raw, f"{name}: the style")


def items_of(page):
    """Returns the span, the leaf and the text of each item of a page."""
    found = []
    for it in page.every("span"):
        if "data-span" in it.attributes:
            leaf = it.attributes.get("data-leaf")
            found.append((it.attributes["data-span"], None if leaf is None else int(leaf), it.text()))
    return found


def front_of(data):
    """Returns the part of an input that is shown: the end cuts no character."""
    if len(data) <= SHOWN:
        return data
    end = SHOWN
    while data[end] & 0xC0 == 0x80 and SHOWN - end < 3:
        end -= 1
    return data[:end]


def look_at_items(page, data, source, text, name):
    """Compares the items of a page with those of `logos_show FILE INPUT`."""
    wanted, labels, front = [], [], front_of(data)
    for record in records(SHOW, source, text):
        start, slice_ = record["from"], slice_of(record)
        if start >= len(front):
            break
        end = start + len(slice_)
        place = f"line {record['line']}, column {record['column']}, bytes {start}..{end}"
        wanted.append((f"{start}..{end}", record["leaf"], shown(slice_[: len(front) - start])))
        labels.append(place if record["leaf"] is not None else f"error, {place}")
        if end >= SHOWN:
            break
    check(items_of(page) == wanted, f"{name}: the items differ")
    spans = [it for it in page.every("span") if "data-span" in it.attributes]
    check(all(it.attributes["aria-label"].endswith(label) for it, label in zip(spans, labels)), f"{name}: a label")
    check(all(it.attributes.get("tabindex") == "0" and it.attributes.get("role") == "group" for it in spans), f"{name}: an item without focus")
    check(all((it.attributes["class"] == "e") == ("data-leaf" not in it.attributes) for it in spans), f"{name}: an error without its mark")
    whole, = page.every("pre")
    check(re.sub("\n", "", whole.text()) == re.sub("\n", "", "".join(parts_shown(front, wanted))), f"{name}: the text differs")
    cut = [it.text() for it in page.every("p") if it.attributes.get("class") == "cut" and "bytes" in it.text()]
    said = [f"The first {len(front)} of {len(data)} bytes are shown."] if len(front) < len(data) else []
    check(cut == said, f"{name}: it says {cut}")


def answer_at(source, text, place):
    """Returns what `--at` says about the start of an item, without the lines about the place."""
    lines = run(SHOW, source, text, "--at", place).decode().splitlines(keepends=True)
    return "".join(it for it in lines if not it.startswith(("inside ", "from ")))


def described_to(page):
    """Returns the offset that the page names, from which on items have no description."""
    for it in page.every("p"):
        if found := re.fullmatch(r"Other matches, and how far leaves read, are shown for items\s+before byte (\d+)\.", it.text()):
            return int(found[1])
    return SHOWN


def look_at_descriptions(page, data, source, text, name):
    """Compares the descriptions of errors, and of the first items, with what `--at` says. Two lines
    about a token, and one about an error, say no more than the label. An item that begins in a
    character has no place of its own."""
    starts = lambda it: int(it.attributes["data-span"].split("..")[0])
    spans = [it for it in page.every("span") if "data-span" in it.attributes and data[starts(it)] & 0xC0 != 0x80 and starts(it) < described_to(page)]
    for it in spans[:ASKED] + [it for it in spans[ASKED:] if it.attributes["class"] == "e"][:ASKED]:
        place = "{}:{}".format(*re.search(r", line (\d+), column (\d+), bytes ", it.attributes["aria-label"]).groups())
        answer = answer_at(source, text, place)
        usual = 1 if it.attributes["class"] == "e" else 2
        wanted = None if answer.count("\n") <= usual else "".join(c if c == "\n" else shown_char(c) for c in answer)
        check(it.attributes.get("aria-description") == wanted, f"{name}: the description at {place} is {it.attributes.get('aria-description')!r}")


def look_at_candidates(room):
    """Looks at the descriptions of items that the definitions decide."""
    source = write(f"{room}/rivals.rs", RIVALS % HARMLESS)
    numbers = {it["variant"]: it["leaf"] for it in records(SHOW, source) if "variant" in it}
    for text, wanted in CANDIDATES.items():
        if wanted:
            found, winner, reason = wanted
            lines = [f'  leaf {numbers[leaf]}  {leaf}  priority {priority}  {size} byte{"s" * (size > 1)}  "{read}"\n' for leaf, priority, size, read in found]
            wanted = "".join([*lines, f"`{winner}` (leaf {numbers[winner]}) wins: {reason}\n"])
        look_at_first(room, source, text, wanted)
    for text, wanted in READERS.items():
        if wanted:
            lines = [f'  leaf {numbers[leaf]}  {leaf}  reads "{read}" to {end}  then needs {needs}\n' for leaf, read, end, needs in wanted]
            wanted = "".join(["no leaf matches\n", *lines])
        look_at_first(room, source, text, wanted)


def look_at_first(room, source, text, wanted):
    """Compares the description of the first item of a text."""
    page, _ = page_of(source, write(f"{room}/i", text), f"{room}/page.html")
    first = next(it for it in page.every("span") if "data-span" in it.attributes)
    check(first.attributes.get("aria-description") == wanted, f"the description of {text} is {first.attributes.get('aria-description')!r}")


def look_at_limits(room):
    """Looks at a page whose descriptions would be very long: 200 leaves match each of its items."""
    leaves = [f'    #[regex("[a-z{chr(65 + number % 26) * (1 + number // 26)}]+", priority = {number + 1})]\n    A{number},\n' for number in range(200)]
    source = write(f"{room}/many.rs", "#[derive(Logos)]\nenum Many {\n" + "".join(leaves) + "}\n")
    page, raw = page_of(source, write(f"{room}/i", b"aa " * 20000), f"{room}/page.html")
    spans = [it for it in page.every("span") if "data-span" in it.attributes]
    described = [int(it.attributes["data-span"].split("..")[0]) < described_to(page) for it in spans if it.attributes["class"] != "e"]
    check(0 < described_to(page) < SHOWN, "the descriptions have no end")
    check(described == ["aria-description" in it.attributes for it in spans if it.attributes["class"] != "e"] and any(described), "other items are described")
    size = sum(len(it.attributes.get("aria-description", "").encode()) for it in spans)
    check(size < 2 * DESCRIBED and len(raw) < 400 * len(spans) + 6 * size + 1_000_000, f"descriptions of {size} bytes in a page of {len(raw)}")


def parts_shown(front, items):
    """Yields the front of an input in the parts that the page shows: gaps and items."""
    at = 0
    for span, _, _ in items:
        start, end = (int(it) for it in span.split(".."))
        yield shown(front[at:start])
        yield shown(front[start:end])
        at = end
    yield shown(front[at:])


def rows_of(page, part):
    """Returns the rows of the table of a part: the row's identifier and its cells."""
    section, = [it for it in page.every("section") if it.attributes["id"] == part]
    body, = section.every("tbody")
    return [(row.attributes["id"], [it for it in row.parts if not isinstance(it, str)]) for row in body.every("tr")]


def look_at_tables(page, source, name):
    """Compares the leaves and the states of a page with what `logos_show FILE` says."""
    answers = [it for it in records(SHOW, source)]
    first = answers[0]["enum"]
    leaves = [it for it in answers if it["enum"] == first and "leaf" in it]
    count, = [it["states"] for it in answers if it["enum"] == first and "states" in it]
    examples = [it for it in records(SHOW, source, "--examples") if it["enum"] == first]
    rows = rows_of(page, "leaves")
    check([it[0] for it in rows] == [f"leaf-{it['leaf']}" for it in leaves], f"{name}: the leaves")
    for (_, cells), leaf, example in zip(rows, leaves, examples):
        texts = [it.text() for it in cells]
        pattern = "".join(shown_char(c) for c in leaf["pattern"])
        callback = "".join(shown_char(c) for c in leaf["callback"] or "")
        lost = example["taker"] is None and texts[8] == "" or f"(leaf {example['taker']})" in texts[8]
        found = texts[7] == "finds nothing" if example["finds"] is None else texts[7].startswith('"')
        wanted = [str(leaf["leaf"]), leaf["variant"] or "skip", leaf["kind"].replace("skip", "regex")]
        check(texts[:2] == wanted[:2] and texts[3].startswith(pattern) and texts[4].split()[0] == str(leaf["priority"]) and texts[5] == callback
              and texts[6] == str(leaf["line"]) and found and lost, f"{name}: the row of leaf {leaf['leaf']}: {texts}")
    states = rows_of(page, "states")
    check(len(states) == min(count, LISTED), f"{name}: {len(states)} of {count} states are listed")
    drawing, = [it for it in page.every("section") if it.attributes["id"] == "drawing"]
    check(bool(list(drawing.every("svg"))) == (count <= DRAWN), f"{name}: the drawing")
    return states


def look_at_diagram(states, source, name):
    """Compares the edges of the states with those of `logos mermaid`."""
    chart = run(LOGOS, "mermaid", source).decode()
    wanted = {(int(a), int(b)) for a, b in re.findall(r"^n(\d+)-->en\1n(\d+)$", chart, re.M)}
    edges = {(number, int(link.attributes["href"].removeprefix("#state-"))) for number, (_, cells) in enumerate(states) for link in cells[-1].every("a")}
    check(edges == wanted, f"{name}: the edges differ from those of the diagram")


def skeleton(page):
    """Returns the elements of a page, in their order, with their attributes but labels."""
    return [(it.tag, {key: value for key, value in it.attributes.items() if key not in ("aria-label", "aria-description", "data-span")}, "aria-description" in it.attributes) for it in page.every()]


def page_of(source, text, to):
    """Makes a page, and returns it as it was read, and its bytes."""
    run(SHOW, source, *([text] if text else []), "--html", to)
    with open(to, encoding="utf-8", newline="") as it:
        raw = it.read()
    page, wrong = parsed(raw)
    check(not wrong and raw.startswith("<!DOCTYPE html>\n"), f"{os.path.basename(source)}: {wrong}")
    return page, raw


def write(path, data):
    with open(path, "wb") as out:
        out.write(data if isinstance(data, bytes) else data.encode())
    return path


def look_at(source, text, data, room, is_first):
    """Looks at the page of a lexer and a text, and at its tables if it is its first page."""
    name = f"{os.path.basename(source)} with {os.path.basename(text)}" if text else os.path.basename(source)
    page, raw = page_of(source, text, f"{room}/page.html")
    look_at_form(page, raw, name)
    if text:
        look_at_items(page, data, source, text, name)
        look_at_descriptions(page, data, source, text, name)
    if not is_first:
        return
    states = look_at_tables(page, source, name)
    if len(states) < LISTED and re.match(r"#\[", open(source, encoding="utf-8").read()) and "Other" not in open(source, encoding="utf-8").read():
        look_at_diagram(states, source, name)


def look_at_markup(room):
    """Compares the elements of pages of texts with markup with those of harmless ones."""
    lines = write(f"{room}/lines.rs", LINES)
    harmless = "".join(c if c in "\n" else "a" for c in NASTY)
    one, _ = page_of(lines, write(f"{room}/i", NASTY), f"{room}/page.html")
    other, _ = page_of(lines, write(f"{room}/i", harmless), f"{room}/page.html")
    check(skeleton(one) == skeleton(other), "markup in a text changes the elements")
    one, _ = page_of(write(f"{room}/t.rs", HOSTILE % MARKUP), None, f"{room}/page.html")
    plain = (HOSTILE % MARKUP).replace("<script>&'\\u{202e}", "a")
    other, _ = page_of(write(f"{room}/t.rs", plain), None, f"{room}/page.html")
    check(skeleton(one) == skeleton(other), "markup in a callback changes the elements")
    simple = '#[derive(Logos)]\nenum E {\n    #[token("%s")]\n    A,\n}\n'
    one, _ = page_of(write(f"{room}/t.rs", simple % MARKUP), None, f"{room}/page.html")
    other, _ = page_of(write(f"{room}/t.rs", simple % HARMLESS), None, f"{room}/page.html")
    tags = lambda page: [it[0] for it in skeleton(page)]
    check(tags(one) == tags(other), "markup in a pattern changes the elements")
    one, _ = page_of(write(f"{room}/t.rs", RIVALS % MARKUP), write(f"{room}/i", MARKUP + " +" + MARKUP), f"{room}/page.html")
    other, _ = page_of(write(f"{room}/t.rs", RIVALS % HARMLESS), write(f"{room}/i", HARMLESS + " +" + HARMLESS), f"{room}/page.html")
    texts = [it.attributes.get("aria-description", "") for it in one.every("span")]
    check(skeleton(one)[-1] == skeleton(other)[-1] and any(f'"{MARKUP}"' in it for it in texts), "a description has other text")
    check([it for it in skeleton(one) if it[0] in ("span", "pre")] == [it for it in skeleton(other) if it[0] in ("span", "pre")], "markup in a description changes the elements")
    strange = f"{room}/<b>&\"' \u202e.rs"
    _, raw = page_of(write(strange, simple % "a"), None, f"{room}/page.html")
    check("<b>" not in raw and "&lt;b&gt;&amp;&quot;&#39; \ufffd.rs" in raw, "the path of a file")


def look_at_files(room):
    """Looks at how the page is written."""
    source, text = write(f"{room}/t.rs", WORDS), write(f"{room}/i", "fast 1")
    page_of(source, text, f"{room}/page.html")
    with open(f"{room}/page.html", "rb") as it:
        written = it.read()
    check(run(SHOW, source, text, "--html", "-") == written, "`-` prints another page")
    page_of(source, text, f"{room}/new/folder/page.html")
    with open(f"{room}/new/folder/page.html", "rb") as it:
        check(it.read() == written, "a page in a new folder")
    write(f"{room}/page.html", "old")
    for words, status in (([source, f"{room}/missing"], 3), ([source, write(f"{room}/bad", b"\xff")], 1), ([write(f"{room}/f.rs", "#[derive(Logos)] enum E { #[regex] A }"), text], 1)):
        ran = subprocess.run([SHOW, *words, "--html", f"{room}/page.html"], stdin=subprocess.DEVNULL, capture_output=True)
        with open(f"{room}/page.html", "rb") as it:
            check(ran.returncode == status and ran.stderr and it.read() == b"old", f"{words}: status {ran.returncode}")
    ran = subprocess.run([SHOW, source, text, "--html", f"{room}/t.rs/page.html"], stdin=subprocess.DEVNULL, capture_output=True)
    check(ran.returncode == 3 and not os.path.exists(f"{room}/t.rs/page.html"), "a page that cannot be written")
    ran = subprocess.run([SHOW, source, text, "--enum", "Other", "--html", "-"], stdin=subprocess.DEVNULL, capture_output=True)
    check(ran.returncode == 0 and b"<title>Lexer Other</title>" in ran.stdout, "the page of an enum by its name")


def look_at_entries(room):
    """Looks at how often states are entered. `ab`, a blank, and `c` with another byte are three
    match attempts: they enter the root three times, and the states of leaves once for each byte."""
    source, text = write(f"{room}/bytes.rs", BYTES), write(f"{room}/i", b"ab c\xff")
    page, _ = page_of(source, text, f"{room}/page.html")
    found = {cells[1].text(): cells[2].text() for _, cells in rows_of(page, "states")}
    check(found == {"": "3", "early: Blank (leaf 1)": "1", "early: Word (leaf 0)": "4"}, f"states are entered otherwise: {found}")
    section, = [it for it in page.every("section") if it.attributes["id"] == "states"]
    check("in the first 5 bytes of the text" in section.text(), "the counted bytes")
    page, _ = page_of(source, write(f"{room}/i", b"a" * 70000), f"{room}/page.html")
    found = {cells[1].text(): cells[2].text() for _, cells in rows_of(page, "states")}
    check(found == {"": "1", "early: Blank (leaf 1)": "0", "early: Word (leaf 0)": str(SHOWN)}, f"a long item: {found}")
    page, _ = page_of(source, None, f"{room}/page.html")
    check(all(len(cells) == 3 for _, cells in rows_of(page, "states")), "counts without a text")


def look_at_pictures(room):
    """Compares the pictures of the handbook, and the texts in their place, with their pages."""
    with open(f"{ROOT}/docs/handbook/see.md", encoding="utf-8") as it:
        shown = it.read()
    found = re.findall(r"^    logos_show (.*) --html page.html\n\n!\[([^]]*(?:\[[^]]*\][^]]*)*)\]\(pictures/([\w-]+)\.png\)$", shown, re.M)
    check([it[2] for it in found] == list(PICTURES) and shown.count("![") == len(found), f"the pictures of the handbook are {[it[2] for it in found]}")
    check(sorted(os.listdir(f"{ROOT}/{FOLDER}")) == sorted(f"{name}.png" for name in PICTURES), "other pictures")
    for words, text, name in found:
        with open(f"{ROOT}/{FOLDER}/{name}.png", "rb") as it:
            data = it.read()
        check(data.startswith(b"\x89PNG\r\n\x1a\n") and data.endswith(b"IEND\xaeB`\x82") and len(data) <= LARGEST, f"the picture {name} has {len(data)} bytes")
        wanted, part, _ = PICTURES[name]
        paths = [f"{ROOT}/{it}" for it in wanted.split()]
        page, _ = page_of(paths[0], paths[1] if paths[1:] else None, f"{room}/page.html")
        section, = [it for it in page.every("section") if it.attributes["id"] == part]
        quoted = [re.sub(r"\s+", " ", it) for it in re.findall(r'"([^"]+)"', text)]
        missing = [it for it in quoted if it not in re.sub(r"\s+", " ", section.text())]
        check(words == wanted and len(quoted) >= 2 and not missing, f"the part of the picture {name} has no {missing}")


def lexed(source, text, data, room):
    """Returns the items of a shown text that `logos lex` finds with the first lexer of a file, as
    `items_of` does, or `None` if the text is refused."""
    with open(source, encoding="utf-8") as it:
        enum = re.search(r"^( *)#\[derive\(Logos.*?^\1\}$", it.read(), re.M | re.S)[0]
    ran = subprocess.run([LOGOS, "lex", write(f"{room}/enum.rs", enum), text], stdin=subprocess.DEVNULL, capture_output=True)
    if ran.returncode == 1 and ran.stderr.startswith(b"NotUtf8"):
        return None
    front, items = front_of(data), []
    for line in ran.stdout.decode().splitlines():
        kind, *leaf, span = line.split(" ")
        start, end = (int(it) for it in span.split(".."))
        if start < len(front):
            items.append((span, int(leaf[0]) if kind == "token" else None, shown(front[start:end])))
        if end >= SHOWN:
            break
    check(ran.returncode == 0, f"logos lex {os.path.basename(source)}: {ran.stderr.decode()}")
    return items


def short_of(data):
    """Returns the first bytes of a text, up to the end of a character."""
    end = min(SHORT, len(data))
    while end < len(data) and data[end] & 0xC0 == 0x80:
        end += 1
    return data[:end]


def opened(browser, path):
    """Returns the items that a browser finds in a page."""
    browser.open(f"file://{path}")
    if not browser.until(f"location.pathname === {json.dumps(path)} && document.readyState === 'complete'"):
        return "the page does not open"
    found = "[...document.querySelectorAll('span[data-span]')].map((it) => [it.dataset.span, it.dataset.leaf ?? null, it.textContent])"
    return [(span, None if leaf is None else int(leaf), text) for span, leaf, text in browser.value(found)]


def look_by_browser(room, sources, texts):
    """Opens the pages of all lexers with all texts in Chromium, and compares their items."""
    if not shutil.which("chromium"):
        print("html_pages: skipped: chromium is not there, which parses pages in another way")
        return
    check((len(sources), len(texts)) == (12, 20), f"there are {len(sources)} lexers and {len(texts)} texts")
    browser, number = Browser(), 0
    try:
        for source, (own, whole) in itertools.product(sources, texts):
            number, data = number + 1, whole
            is_own = os.path.splitext(own)[0] == os.path.splitext(source)[0]
            text = own if is_own else write(f"{room}/short", data := short_of(whole))
            wanted, to = lexed(source, text, data, room), f"{room}/page{number}.html"
            if wanted is not None:
                run(SHOW, source, text, "--html", to)
                check(opened(browser, to) == wanted, f"chromium finds other items of {os.path.basename(source)} in {os.path.basename(own)}")
                os.remove(to)
        source, text = write(f"{room}/lines.rs", LINES), write(f"{room}/i", NASTY + "\n" + NASTY + "\n")
        page, _ = page_of(source, text, f"{room}/page.html")
        check(opened(browser, f"{room}/page.html") == items_of(page) and len(items_of(page)) == 4, "chromium finds other items of a text with markup")
        dumped, wrong = parsed(browser.value("document.documentElement.outerHTML"))
        check(not wrong and skeleton(dumped) == skeleton(page), f"chromium finds other elements: {wrong}")
    finally:
        browser.end()


def main():
    with tempfile.TemporaryDirectory(prefix="html-") as room:
        room = os.path.realpath(room)
        sources, given = sorted(glob.glob(f"{ROOT}/examples/lexers/*.rs")), []
        for source in sources:
            text = source.removesuffix(".rs") + ".input"
            with open(text, "rb") as it:
                given.append((text, it.read()))
            look_at(source, *given[-1], room, True)
        for name, (source, texts) in TEXTS.items():
            sources.append(write(f"{room}/{name}.rs", source))
            look_at(sources[-1], None, None, room, True)
            for number, data in enumerate(texts):
                given.append((write(f"{room}/{name}.{number}", data), data))
                look_at(sources[-1], *given[-1], room, False)
        look_at_markup(room)
        look_at_candidates(room)
        look_at_limits(room)
        look_at_files(room)
        look_at_entries(room)
        look_at_pictures(room)
        look_by_browser(room, sources, given)
    print(f"html_pages: {counts[True]} passed, {counts[False]} failed")
    sys.exit(counts[False] > 0)


if __name__ == "__main__":
    if len(sys.argv) != 3:
        sys.exit(__doc__)
    LOGOS, SHOW = (os.path.realpath(it) for it in sys.argv[1:])
    main()
