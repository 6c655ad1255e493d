#!/usr/bin/env python3
"""Feeds each character that a terminal obeys, or does not show, through the places of a report and
of an answer, and looks for it in what is printed.

  terminal.py LOGOS_CLI LOGOS_SHOW

The places of a report are a comment and a pattern in the lines of a source, the message of a fault
that quotes a pattern, the line of a warning, the text on which ambiguous leaves meet, and the path
of the file. The answers are those of `logos_show` about a pattern or an input that holds the
character, and the paths that they name. The messages about invalid arguments and about paths of
both programs follow. What `--inputs` prints must also read back as the
character. Each character in each place counts as one. The last line is
`terminal: N passed, M failed`."""
import os
import re
import subprocess
import sys
import tempfile
import unicodedata

# Characters of the categories of controls, formats and separators of lines, but for those that a
# source or a path cannot hold there. A prepended mark of Arabic, Syriac or Kaithi is seen, and so
# are the controls of hieroglyphs and of notes.
SEEN = {*range(0x600, 0x606), 0x6DD, 0x70F, 0x890, 0x891, 0x8E2, 0x110BD, 0x110CD, *range(0x13430, 0x13440), *range(0x1BCA0, 0x1BCA4),
        *range(0x1D173, 0x1D17B)}
WANTED = [c for c in range(0x110000) if unicodedata.category(chr(c)) in ("Cc", "Cf", "Zl", "Zp") and c not in SEEN]
PLACES = {
    "a line": 'enum E {{ /* {} */ #[regex] A }}',
    "the line of a pattern": 'enum E {{ #[regex("{}[")] A }}',
    "a message": 'enum E {{ #[regex("({})*")] A }}',
    "a warning": 'enum E {{ #[tokn("{}")] #[regex] A }}',
    "the text of ambiguous leaves": 'enum E {{ #[token("{0}", priority = 9)] A, #[regex("{0}|b", priority = 9)] B }}',
}


# Questions to `logos_show`, each with the words, what else has to be printed, and the files. `{}`
# is the character.
FOUND = '#[derive(Logos)] enum E {{ #[token("{}")] A }}'
ANY = '#[derive(Logos)] enum E {{ #[regex("[^a]+")] A }}'
QUESTIONS = {
    "a table": (["t.rs"], "jump tables", {"t.rs": FOUND}),
    "an example": (["t.rs", "--examples"], "finds ", {"t.rs": FOUND}),
    "a comparison": (["t.rs", "u.rs", "--compare"], "differ on ", {"t.rs": FOUND, "u.rs": ANY}),
    "an item": (["t.rs", "i"], "errors: 0", {"t.rs": ANY, "i": "{}é"}),
    "an item of bytes": (["t.rs", "i"], "errors: 0", {"t.rs": ANY.replace("enum", "#[logos(utf8 = false)] enum"), "i": "{}é"}),
    "a match": (["t.rs", "i", "--at", "1:1"], "wins", {"t.rs": ANY, "i": "{}"}),
    "a stored answer": (["t.rs", "i", "--expect", "l"], "is another", {"t.rs": ANY, "i": "b", "l": "{}"}),
}
# The same with a path that has the character.
PATHS = {
    "the path of a table": (["t{}.rs"], "jump tables", {"t{}.rs": ANY}),
    "the path of a lexer": (["t{}.rs", "u.rs", "--compare"], "differ on ", {"t{}.rs": FOUND.replace("{}", "b"), "u.rs": ANY}),
    "the path of an input": (["t.rs", "i{}", "--at", "9:9"], "has no column", {"t.rs": ANY, "i{}": "b"}),
    "the path of a stored answer": (["t.rs", "i", "--expect", "l{}"], "is another", {"t.rs": ANY, "i": "b", "l{}": ""}),
    "a file without a lexer": (["t{}.rs", "i"], "derives `Logos`", {"t{}.rs": "", "i": ""}),
}
# Arguments that a program refuses, and what it prints about them.
REFUSED = {
    "an unknown option": (["-{}"], "unknown option"),
    "a missing path": (["no{}.rs"], "cannot read"),
    "a path below a file": (["t.rs/{}"], "a part of the path is not a folder"),
    "the path of a result": (["t.rs", "-o", "t.rs/{}"], "cannot write"),
    "another shape": (["t.rs", "--shape", "x{}"], "`--shape` is"),
}
ESCAPES = {"n": "\n", "r": "\r", "t": "\t", '"': '"', "\\": "\\"}


def printed(program, room, words, files):
    """Returns what the program prints where these files are."""
    for name, text in files.items():
        with open(os.path.join(room, name), "w", encoding="utf-8", newline="") as out:
            out.write(text)
    ran = subprocess.run([program, *words], cwd=room, capture_output=True, check=False)
    for name in files:
        os.remove(os.path.join(room, name))
    return ran.stdout.decode() + ran.stderr.decode()


def read_back(line):
    """Returns the text of a string literal of Rust on one line."""
    text = re.sub(r"\\(?:x(..)|u\{(\w+)\}|(.))", lambda m: chr(int(m[1] or m[2], 16)) if m[1] or m[2] else ESCAPES[m[3]], line[1:-1])
    return text if line[0] == line[-1] == '"' else None


def main():
    program, show = (os.path.realpath(word) for word in sys.argv[1:3])
    passed, failed = 0, []

    def look(place, c, text, wanted):
        nonlocal passed
        body = text.replace("\n", "")
        if wanted in text and chr(c) not in body:
            passed += 1
        else:
            failed.append(f"U+{c:04X} in {place}")

    def ask(place, question, c):
        words, wanted, files = question
        files = {name.format(chr(c)): text.format(chr(c)) for name, text in files.items()}
        look(place, c, printed(show, room, [word.format(chr(c)) for word in words], files), wanted)

    with tempfile.TemporaryDirectory() as room:
        for c in WANTED:
            for place, source in PLACES.items():
                # LF ends a line, and CR is read in front of LF alone.
                if c not in (10, 13):
                    look(place, c, printed(program, room, ["t.rs"], {"t.rs": f"#[derive(Logos)]\n{source.format(chr(c))}\n"}), "error[")
            for place, question in QUESTIONS.items():
                if c not in (10, 13):
                    ask(place, question, c)
            if c not in (10, 13):
                text = printed(show, room, ["t.rs", "--inputs", "9"], {"t.rs": FOUND.format(chr(c))})
                look("an input", c, text, "" if read_back(text[:-1]) == chr(c) else "an input that reads back")
            if c not in (0, 10):  # a path has no NUL, and each line ends in LF
                path = f"t{chr(c)}.rs"
                look("a path", c, printed(program, room, [path], {path: "#[derive(Logos)]\nenum E { #[regex] A }\n"}), "error[")
                for place, question in PATHS.items():
                    ask(place, question, c)
                for place, (words, wanted) in REFUSED.items():
                    words = [word.format(chr(c)) for word in words]
                    look(place, c, printed(program, room, words, {"t.rs": FOUND.format("b")}), wanted)
                    if len(words) == 1:
                        look(f"{place} of logos_show", c, printed(show, room, words, {"t.rs": ANY}), wanted)
    for line in failed:
        print(f"terminal: {line}")
    print(f"terminal: {passed} passed, {len(failed)} failed")
    sys.exit(1 if failed or not passed else 0)


main()
