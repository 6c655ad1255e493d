"""Makes the texts that `rows.py` measures, from the file `sources` of a folder.

A line there has a kind, a colon, and the text of a kind, in which `↵` ends a line. In it
`⟨TEXT×N⟩` stands for N times a text, and, for a size n,

- `⟨TEXT⟩` for a text again and again, so that the whole has at most n bytes;
- `⟨0 TEXT⟩` and `⟨1 TEXT⟩` for a text for each number below n, from that one on;
- `{k}` in these for the number, `{n}` for the size, and `{k-1}` and `{n-1}` for one less;
- `⟨sets⟩` for n random sets of eight bytes.

A kind that is none is a text, which is repeated."""
import random
import re


def sets(size):
    """Returns so many classes in a row, each a random set of eight bytes."""
    made = random.Random(1)
    return "".join("[" + "".join(f"\\x{byte:02x}" for byte in sorted(made.sample(range(0x20, 0x7F), 8))) + "]" for _ in range(size))


def numbered(text, letter, number):
    """Returns a text with a number in the place of a letter in braces."""
    return text.replace(f"{{{letter}}}", str(number)).replace(f"{{{letter}-1}}", str(number - 1))


def source(folder, kind, size):
    """Returns the text of a kind, of this size."""
    with open(f"{folder}/sources", encoding="utf-8") as lines:
        texts = dict(line.rstrip("\n").split(": ", 1) for line in lines)
    text = texts.get(kind, f"⟨{kind}⟩").replace("↵", "\n")
    text = re.sub(r"⟨([^⟨⟩]*)×(\d+)⟩", lambda it: it[1] * int(it[2]), text)
    text = numbered(text.replace("⟨sets⟩", sets(size) if "⟨sets⟩" in text else ""), "n", size)
    text = re.sub("⟨([01]) ([^⟨⟩]*)⟩", lambda it: "".join(numbered(it[2], "k", at) for at in range(int(it[1]), size)), text)
    before, opening, rest = text.partition("⟨")
    if not opening:
        return text
    part, _, after = rest.partition("⟩")
    return before + part * ((size - len(before) - len(after)) // len(part)) + after
