"""Makes texts of the kinds in `PARTS`, from a fixed seed."""
import random

from .further import FURTHER
from .pieces import DIGITS, LETTERS, LOWER, MONTHS, blank, clock, filled, path, quad, some

PAGE = 1 << 20
KEYWORDS = "if else while for return let fn break continue struct".split()
OPERATORS = "+ - * / = == != < <= > >= && || ! ( ) { } [ ] ; , .".split()
# the first and the last letter of scripts, with how often a word is of each
SCRIPTS = [("a", "z", 40), ("\u00e0", "\u00f6", 8), ("\u03b1", "\u03c9", 12), ("\u0430", "\u044f", 16), ("\u05d0", "\u05ea", 6), ("\u0905", "\u0939", 6), ("\u3042", "\u3094", 6), ("\u4e00", "\u9fa0", 6)]


def program_token(rng):
    kind = rng.randrange(100)
    if kind < 40:
        return rng.choice(LETTERS) + some(rng, LETTERS + DIGITS, 0, 11)
    if kind < 52:
        return rng.choice(KEYWORDS)
    if kind < 62:
        digits = some(rng, DIGITS, 1, 6)
        return digits if rng.randrange(3) else digits + "." + rng.choice(DIGITS)
    if kind < 67:
        return '"' + some(rng, LETTERS + DIGITS + "      ", 0, 29) + rng.choice(["", '\\"', "\\n"]) + '"'
    return rng.choice(OPERATORS)


def program(rng):
    return program_token(rng) + blank(rng)


def json_text(rng):
    ends = ["", "", "", "", "", "\\n", '\\"', "\\u00e9", "\u00e9"]
    return '"' + some(rng, LOWER + " ", 0, 24) + rng.choice(ends) + '"'


def json_number(rng):
    number = rng.choice(["", "", "-"]) + str(rng.randrange(10 ** rng.randrange(1, 9)))
    return number + rng.choice(["", "", "." + some(rng, DIGITS, 1, 4), "e" + rng.choice("+-") + rng.choice(DIGITS)])


def json_value(rng, depth):
    kind = rng.randrange(20)
    if depth and kind < 3:
        return "{" + ", ".join(f'"{some(rng, LOWER, 2, 9)}": {json_value(rng, depth - 1)}' for _ in range(rng.randrange(8))) + "}"
    if depth and kind < 5:
        return "[" + ",".join(json_value(rng, depth - 1) for _ in range(rng.randrange(8))) + "]"
    if kind < 11:
        return json_text(rng)
    return json_number(rng) if kind < 17 else rng.choice(["null", "true", "false"])


def json(rng):
    members = (f'    "{some(rng, LOWER, 2, 9)}": {json_value(rng, 3)}' for _ in range(rng.randrange(3, 12)))
    return "  {\n" + ",\n".join(members) + "\n  },\n"


def log_field(rng):
    kind = rng.randrange(5)
    name = some(rng, LOWER, 2, 8)
    if kind == 0:
        return name + "=" + quad(rng)
    if kind == 1:
        return name + "=" + str(rng.randrange(100000)) + rng.choice(["", "ms", "us", "kB"])
    if kind == 2:
        return name + "=" + path(rng)
    if kind == 3:
        return name + '="' + some(rng, LETTERS + "      ,.", 0, 40) + '"'
    return " ".join(some(rng, LOWER, 2, 9) for _ in range(rng.randrange(1, 6)))


def log(rng):
    time = f"2024-{rng.randrange(1, 13):02}-{rng.randrange(1, 29):02}T{clock(rng)}.{rng.randrange(1000):03}Z"
    level = rng.choice(["TRACE", "DEBUG", "INFO ", "INFO ", "INFO ", "WARN ", "ERROR"])
    module = ".".join(some(rng, LOWER, 3, 8) for _ in range(rng.randrange(1, 4)))
    return f"{time} {level} [worker-{rng.randrange(32)}] {module}: " + " ".join(log_field(rng) for _ in range(rng.randrange(1, 7))) + "\n"


def prose_word(rng):
    first, last, _ = rng.choices(SCRIPTS, weights=[weight for _, _, weight in SCRIPTS])[0]
    most = 3 if first > "\u3000" else 11
    return "".join(chr(rng.randrange(ord(first), ord(last) + 1)) for _ in range(rng.randrange(1, most + 1)))


def prose(rng):
    kind = rng.randrange(40)
    word = some(rng, DIGITS, 1, 5) if kind == 0 else prose_word(rng)
    mark = rng.choice([",", ",", ".", ".", ";", "?", "\u2026", "\u3002"]) if rng.randrange(7) == 0 else ""
    return word + mark + ("\n" if kind == 1 else " ")


def cased(rng, word):
    return rng.choice([word, word.upper(), word.upper(), word.capitalize()])


def sql_name(rng):
    name = "_".join(some(rng, LOWER, 2, 9) for _ in range(rng.randrange(1, 4)))
    return rng.choice([name] * 12 + [f'"{name} {some(rng, LETTERS, 1, 9)}"', f"`{name}`", name + "$" + some(rng, DIGITS, 1, 3)])


def sql_text(rng):
    words = [some(rng, LETTERS, 1, 9) for _ in range(rng.choice([0, 1, 1, 1, 2, 3, 5, 25]))]
    return "'" + rng.choice([" ", " ", "''", ", ", "\u00e9 "]).join(words) + "'"


def sql_value(rng, depth):
    kind = rng.randrange(16)
    if depth and kind < 3:
        function = rng.choice(["count", "sum", "coalesce", "left", "right", "lower", some(rng, LOWER, 3, 9)])
        return f"{function}({', '.join(sql_value(rng, depth - 1) for _ in range(rng.randrange(1, 4)))})"
    if depth and kind == 3:
        parts = (f"{cased(rng, 'when')} {sql_test(rng, 0)} {cased(rng, 'then')} {sql_value(rng, 0)}" for _ in range(rng.randrange(1, 4)))
        return f"{cased(rng, 'case')} {' '.join(parts)} {cased(rng, 'else')} {sql_value(rng, 0)} {cased(rng, 'end')}"
    if kind < 10:
        return rng.choice(["", some(rng, LOWER, 1, 2) + "."]) + sql_name(rng)
    if kind < 12:
        return sql_text(rng)
    if kind < 14:
        return rng.choice([str(rng.randrange(10 ** rng.randrange(1, 7))), f"{rng.randrange(1000)}.{rng.randrange(100)}", "1e-3", "12.e"])
    return rng.choice([":" + some(rng, LOWER, 2, 6), "?", "$" + rng.choice(DIGITS), "@" + some(rng, LOWER, 2, 6), "null", "NULL"])


def sql_test(rng, depth):
    kind = rng.randrange(8)
    value = sql_value(rng, depth)
    if kind == 0:
        return f"{value} {cased(rng, 'is')} {cased(rng, 'not')} {cased(rng, 'null')}"
    if kind == 1:
        return f"{value} {cased(rng, 'in')} ({', '.join(sql_value(rng, 0) for _ in range(rng.randrange(1, 7)))})"
    if kind == 2:
        return f"{value} {cased(rng, 'between')} {sql_value(rng, 0)} {cased(rng, 'and')} {sql_value(rng, 0)}"
    return f"{value}{rng.choice([' = ', ' = ', '=', ' <> ', ' >= ', '<', ' || ', ' ! ', '::'])}{sql_value(rng, depth)}"


def sql(rng):
    word = lambda text: cased(rng, text)
    line = "\n" + " " * (4 * rng.randrange(4))
    if rng.randrange(12) == 0:
        return rng.choice([f"-- {some(rng, LETTERS + '      ', 5, 60)}\n", f"/* {some(rng, LETTERS + '     *', 5, 90)} */\n"])
    if rng.randrange(5) == 0:
        names = [sql_name(rng) for _ in range(rng.randrange(1, 8))]
        rows = (f"({', '.join(sql_value(rng, 1) for _ in names)})" for _ in range(rng.randrange(1, 6)))
        return f"{word('insert')} {word('into')} {sql_name(rng)} ({', '.join(names)}){line}{word('values')} {(',' + line).join(rows)};\n\n"
    parts = [f"{word('select')} {', '.join(sql_value(rng, 2) for _ in range(rng.randrange(1, 9)))}", f"{word('from')} {sql_name(rng)} {word('as')} {some(rng, LOWER, 1, 2)}"]
    for _ in range(rng.randrange(4)):
        kind = rng.choice(["join", "left join", "inner  join", "left outer join", "cross join"])
        parts.append(f"{word(kind)} {sql_name(rng)} {word('on')} {sql_test(rng, 1)}")
    if rng.randrange(4):
        parts.append(f"{word('where')} " + f" {word('and')} ".join(sql_test(rng, 2) for _ in range(rng.randrange(1, 5))))
    if rng.randrange(3) == 0:
        parts.append(f"{word('group')} {word('by')} {sql_name(rng)}, {sql_name(rng)}")
    if rng.randrange(3) == 0:
        parts.append(f"{word('order')} {word('by')} {sql_name(rng)} {word('desc')}{line}{word('limit')} {rng.randrange(1000)}")
    return line.join(parts) + ";\n\n"


def css_name(rng):
    name = "-".join(some(rng, LOWER, 2, 8) for _ in range(rng.randrange(1, 4)))
    return rng.choice([name] * 9 + ["-webkit-" + name, "--" + name, name + "\u00e9", name + "\\:" + some(rng, LOWER, 1, 4)])


def css_number(rng):
    number = rng.choice([str(rng.randrange(1000)), str(rng.randrange(20)), f"{rng.randrange(10)}.{rng.randrange(100)}", f".{rng.randrange(1, 10)}", f"-{rng.randrange(100)}"])
    return number + rng.choice(["", "px", "px", "em", "rem", "%", "%", "s", "vh", "e"])


def css_value(rng):
    kind = rng.randrange(20)
    if kind < 6:
        return css_name(rng)
    if kind < 12:
        return css_number(rng)
    if kind < 14:
        return "#" + some(rng, "0123456789abcdefABCDEF", 3, 8)
    if kind == 14:
        return rng.choice(["url(data:image/png;base64," + some(rng, LETTERS + DIGITS + "+/", 20, 400) + ")", f"url(../{some(rng, LOWER, 3, 9)}/{some(rng, LOWER, 3, 9)}.png)", f'url("{some(rng, LOWER, 3, 20)}.svg")'])
    if kind == 15:
        return rng.choice(['"' + some(rng, LETTERS + "    ", 0, 40) + rng.choice(["", "\\2014", "\u2192"]) + '"', "'" + some(rng, LETTERS, 1, 20) + "'"])
    if kind == 16:
        return f"calc({css_number(rng)} - {css_number(rng)} * {rng.randrange(10)})"
    if kind == 17:
        return f"rgba({rng.randrange(256)}, {rng.randrange(256)}, {rng.randrange(256)}, .{rng.randrange(10)})"
    return rng.choice([f"var(--{css_name(rng)})", "$" + css_name(rng), "!important", f"linear-gradient({css_number(rng)}, {css_name(rng)})"])


def css_selector(rng):
    parts = (rng.choice(["", ".", ".", "#"]) + css_name(rng) + rng.choice(["", "", "", ":hover", "::before", ":nth-child(2n+1)", f'[{css_name(rng)}^="{some(rng, LOWER, 1, 9)}"]', f"[{css_name(rng)}]"]) for _ in range(rng.randrange(1, 4)))
    return rng.choice([" ", " > ", " + ", "~"]).join(parts)


def css(rng):
    kind = rng.randrange(20)
    if kind == 0:
        return f"/* {some(rng, LETTERS + '        *', 5, 160)} */\n"
    lines = "".join(f"  {css_name(rng)}: {' '.join(css_value(rng) for _ in range(rng.randrange(1, 5)))};\n" for _ in range(rng.randrange(1, 9)))
    rule = ",\n".join(css_selector(rng) for _ in range(rng.randrange(1, 4))) + " {\n" + lines + "}\n"
    if kind == 1:
        return f"@media (max-width: {css_number(rng)}) and (orientation: {css_name(rng)}) {{\n{rule}}}\n"
    return rule


def template(rng):
    kind = rng.randrange(12)
    blank = lambda: " " * rng.choice([1, 1, 1, 1, 1, 1, 1, 2, 3]) + rng.choice([""] * 9 + ["\t"])
    if kind == 0:
        return rng.choice(["{{! " + some(rng, LETTERS + "        }", 3, 90) + " }}", "\\{{", "{ ", "\\", "{{"])
    path = ".".join(some(rng, LOWER, 2, 9) for _ in range(rng.randrange(1, 4)))
    if kind < 4:
        return "{{" + rng.choice(["", "", "#", "/", "^", "&"]) + path + rng.choice(["", "", " | upper", "|length"]) + "}}" + rng.choice(["", blank()])
    if kind < 7:
        return rng.choice(["", "", blank(), blank() * 2, " " * 12]) + "\n" + rng.choice(["", "    ", "\t\t", " " * 8])
    words = [prose_word(rng) if rng.randrange(6) == 0 else some(rng, LETTERS, 1, 10) for _ in range(rng.randrange(1, 12))]
    return "".join(word + rng.choice(["", "", "", ",", "."]) + blank() for word in words)


def access_address(rng):
    if rng.randrange(8):
        return quad(rng)
    return ":".join(f"{rng.randrange(65536):x}" for _ in range(rng.randrange(3, 9)))


def access_request(rng):
    kind = rng.randrange(40)
    if kind == 0:
        return b'"\\x16\\x03\\x01\\x02"'
    if kind == 1:
        return b'"' + bytes(rng.choices([byte for byte in range(1, 256) if byte not in b'\n"\\'], k=rng.randrange(1, 60))) + b'"'
    target = path(rng)
    query = rng.choice(["", "", "?" + "&".join(f"{some(rng, LOWER, 1, 6)}={some(rng, LETTERS + DIGITS + '%+', 0, 12)}" for _ in range(rng.randrange(1, 5)))])
    return f'"{rng.choice(["GET", "GET", "GET", "POST", "HEAD", "PUT", "OPTIONS"])} {target}{query} HTTP/{rng.choice(["1.1", "1.1", "1.0", "2"])}"'.encode()


def access(rng):
    date = f"[{rng.randrange(1, 29):02}/{rng.choice(MONTHS)}/2024:{clock(rng)} {rng.choice('+-')}0{rng.randrange(10)}00]"
    user = rng.choice(["-", "-", "-", some(rng, LOWER, 3, 9)])
    status = f"{rng.choice([200, 200, 200, 301, 304, 404, 500])} {rng.choice(['-', rng.randrange(10 ** rng.randrange(1, 7))])}"
    referrer = rng.choice(["-", "-", f"https://{some(rng, LOWER, 3, 12)}.example/{some(rng, LOWER, 0, 30)}"])
    agent = "Mozilla/5.0 (" + "; ".join(some(rng, LETTERS + DIGITS + "  .", 3, 20) for _ in range(rng.randrange(1, 4))) + ") " + " ".join(f"{some(rng, LETTERS, 3, 10)}/{rng.randrange(200)}.{rng.randrange(10)}" for _ in range(rng.randrange(1, 5)))
    time = rng.choice(["", "", "", f" 0.{rng.randrange(1000):03}"])
    return f"{access_address(rng)} - {user} {date} ".encode() + access_request(rng) + f' {status} "{referrer}" "{agent}"{time}\n'.encode()


PARTS = {
    "program": program,
    "json": json,
    "log": log,
    "prose": prose,
    "words": lambda rng: "a" * 40 + " ",
    "blanks": lambda rng: " ",
    "operators": lambda rng: "+",
    "sql": sql,
    "css": css,
    "template": template,
    "access": access,
    **FURTHER,
}


def text(kind, size):
    """Returns a text of a kind and of so many bytes: a page of about a mebibyte, repeated, and then
    blanks."""
    page = filled(PARTS[kind], random.Random(1), PAGE)
    return (page * (size // len(page))).ljust(size)
