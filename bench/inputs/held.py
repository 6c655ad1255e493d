"""Makes texts of the kinds of `held_rules.py`, and texts like the inputs of examples/lexers.

A text is made from a fixed seed, and nothing in it is repeated as a whole. An input of
examples/lexers is there again and again, each time with other words and numbers."""
import pathlib
import random
import re

from .pieces import LOWER, clock, filled, quad

EXAMPLES = pathlib.Path(__file__).parents[2] / "examples/lexers"
SYLLABLES = "ba be bo da de ka ke ki la le ma mi na no pa po ra re ri sa se so ta te ti to va vi".split()


def word(rng, most=4):
    return "".join(rng.choices(SYLLABLES, k=rng.randint(1, most)))


def words(rng, most):
    return " ".join(word(rng) for _ in range(rng.randint(1, most)))


def number(rng, digits=5):
    return str(rng.randrange(10 ** rng.randint(1, digits)))


def html(rng):
    name = rng.choice("div p span a li td section em".split())
    pairs = "".join(f' {rng.choice(["class", "id", "href", "data-kind"])}="{words(rng, 3)}"' for _ in range(rng.randrange(3)))
    inside = rng.choice([words(rng, 12), words(rng, 30), f"{word(rng)} &amp; {word(rng)}, &#8217;{word(rng)}", ""])
    more = f"<!-- {words(rng, 6)} -->\n" if rng.randrange(20) == 0 else ""
    return f"{more}{' ' * rng.randrange(0, 12, 2)}<{name}{pairs}>{inside}" + rng.choice([f"</{name}>\n", f"</{name}>\n", "<br/>\n"])


def csv(rng):
    cells = [number(rng), f"20{rng.randrange(10, 30)}-{rng.randrange(1, 13):02}-{rng.randrange(1, 29):02}", words(rng, 3)]
    cells += [f"{rng.uniform(-900, 900):.2f}", rng.choice([f'"{words(rng, 4)}, ""{word(rng)}"" {word(rng)}"', words(rng, 2), '""'])]
    return ",".join(rng.sample(cells, rng.randint(3, 5))) + "\n"


def syslog(rng):
    head = f"{rng.choice(['Jan', 'Jun', 'Oct'])} {rng.randrange(1, 29):2} {clock(rng)}"
    parts = [f"user={word(rng)}", f"({words(rng, 2)})", f"/var/{word(rng)}/{word(rng)}.log", quad(rng), words(rng, 6), f"rc={number(rng, 3)}", f"<{rng.choice(['error', 'info'])}>"]
    # bytes at which no rule's match begins
    parts += ["#" + number(rng, 2), "\x01", "?!", f"{word(rng)}\u00e9"]
    return f"{head} {word(rng, 2)} {word(rng, 3)}[{number(rng)}]: {' '.join(rng.sample(parts, rng.randint(2, 6)))}\n"


def minjs_value(rng, depth):
    kind = rng.randrange(12 if depth else 8)
    if kind < 3:
        return rng.choice(LOWER) + rng.choice(["", "", rng.choice(LOWER)])
    if kind < 5:
        return rng.choice([number(rng, 3), "0", "1", f"0x{rng.randrange(4096):x}", "1e3"])
    if kind < 6:
        return rng.choice([f'"{words(rng, 3)}"', f"'{word(rng)}'", f'"\\n{word(rng)}"'])
    if kind < 8:
        return f"{rng.choice(LOWER)}.{word(rng)}"
    if kind < 10:
        return f"{minjs_value(rng, depth - 1)}{rng.choice(['+', '-', '===', '&&', '||', '<', ',', '!=='])}{minjs_value(rng, depth - 1)}"
    return f"{rng.choice(LOWER)}({minjs_value(rng, depth - 1)})"


def minjs(rng):
    value = minjs_value(rng, 3)
    forms = [f"var {rng.choice(LOWER)}={value};", f"if({value}){{return {value}}}", f"function {rng.choice(LOWER)}({rng.choice(LOWER)}){{{value}}}", f"{value};"]
    return rng.choice(forms) + ("\n" if rng.randrange(30) == 0 else "")


def asia(rng):
    scripts = [(0x3041, 0x3096), (0x30A1, 0x30FA), (0x4E00, 0x9FFF), (0x4E00, 0x5FFF), (0xAC00, 0xD7A3), (0x0E01, 0x0E2E), (0x0905, 0x0939)]
    low, high = rng.choice(scripts)
    run = "".join(chr(rng.randint(low, high)) for _ in range(rng.randint(1, 7)))
    return run + rng.choice(["", "", "", " ", "\u3001", "\u3002\n", word(rng), number(rng, 3)])


def hexdump(rng):
    row = rng.choice([bytes(16), bytes(rng.choices(range(256), k=16)), words(rng, 9).encode().ljust(16)[:16]])
    text = "".join(chr(it) if 32 <= it < 127 and it != 124 else "." for it in row)
    pairs = " ".join(f"{it:02x}" for it in row[:8]) + "  " + " ".join(f"{it:02x}" for it in row[8:])
    return f"{rng.randrange(1 << 32):08x}  {pairs}  |{text}|\n" + ("*\n" if rng.randrange(12) == 0 else "")


def tex(rng):
    parts = [words(rng, 14), f"\\{word(rng)}{{{words(rng, 3)}}}", f"${rng.choice(LOWER)}_{{{number(rng, 1)}}}^2 = \\frac{{{number(rng, 2)}}}{{{rng.choice(LOWER)}}}$"]
    parts += [f"\\begin{{{word(rng)}}}[{word(rng)}]\n", f"{word(rng)}~\\cite{{{word(rng)}:{number(rng, 4)}}}.", f"% {words(rng, 6)}\n", f"``{words(rng, 4)}'', "]
    return rng.choice(parts) + rng.choice([" ", " ", "\n", "\n\n"])


def settings(rng):
    values = [f"on;", f"{quad(rng)}:{number(rng, 4)};", f"/{word(rng)}/{word(rng)}/{word(rng)}.conf;", f"${word(rng)} {words(rng, 3)};", f'"{words(rng, 3)}";', f"{number(rng, 3)}m;"]
    line = f"{word(rng)}_{word(rng)} {rng.choice(values)}"
    return " " * rng.choice([0, 4, 8]) + rng.choice([line, line, line, f"location ~ /{word(rng)} {{", "}", f"# {words(rng, 8)}"]) + "\n"


def diff(rng):
    line = rng.choice([f"    let {word(rng)} = {word(rng)}({word(rng)}, {number(rng)});", words(rng, 9), "}", ""])
    heads = [f"@@ -{number(rng)},7 +{number(rng)},9 @@ fn {word(rng)}()", f"--- a/{word(rng)}.rs", f"+++ b/{word(rng)}.rs", f"index {rng.randrange(1 << 28):07x}..{rng.randrange(1 << 28):07x} 100644"]
    return rng.choice([" ", " ", " ", " ", "+", "-"]) + line + "\n" if rng.randrange(9) else rng.choice(heads) + "\n"


def lisp_form(rng, depth):
    if depth == 0 or rng.randrange(3) == 0:
        return rng.choice([word(rng), word(rng), f"{word(rng)}-{word(rng)}", number(rng, 3), f":{word(rng)}", f"'{word(rng)}", f'"{words(rng, 4)}"', f'"say \\"{word(rng)}\\""'])
    return "(" + " ".join([rng.choice(["defun", "let*", "if", "+", word(rng)])] + [lisp_form(rng, depth - 1) for _ in range(rng.randint(1, 4))]) + ")"


def lisp(rng):
    return (f"; {words(rng, 7)}\n" if rng.randrange(5) == 0 else "") + lisp_form(rng, 5).replace(" (", rng.choice([" (", "\n  ("])) + "\n"


KINDS = {it.__name__: it for it in (html, csv, syslog, minjs, asia, hexdump, tex, settings, diff, lisp)}


def example(name):
    """Returns what makes a part of a text like an input, with half of its words and numbers
    changed."""
    source = (EXAMPLES / f"{name}.input").read_bytes().decode("latin-1").replace('"open', "open")

    def changed(rng, found):
        if rng.randrange(2):
            return found
        return word(rng) if found[0] in LOWER else "".join(rng.choices("123456789", k=len(found)))

    def part(rng):
        return re.sub(r"\b([a-z]{3,}|[1-9][0-9]*)\b", lambda found: changed(rng, found[0]), source).encode("latin-1")

    return part


def text(kind, size):
    """Returns a text of at most so many bytes, of one of `KINDS`, or for `examples/NAME` like an
    input of examples/lexers."""
    example_name = kind.removeprefix("examples/")
    part = example(example_name) if example_name != kind else KINDS[kind]
    return filled(part, random.Random(7), size)[:size].rsplit(b"\n", 1)[0] + b"\n"
