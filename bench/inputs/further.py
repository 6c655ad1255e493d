"""Makers of parts of further texts, for `made.py`."""
from .pieces import DIGITS, LETTERS, LOWER, MONTHS, blank, clock, path, quad, some

# The words and the signs of languages, and how a comment begins.
LANGUAGES = {
    "rust_like": (
        "as break const else enum fn for if impl in let loop match mod move mut pub ref return self"
        " struct trait true type use where while",
        "+ - * / = == != < <= > >= && || ! ( ) { } [ ] ; , . :: -> => & | .. : #",
        "// ",
    ),
    "sql_unicode": (
        "SELECT FROM WHERE GROUP ORDER HAVING LIMIT INSERT INTO VALUES UPDATE SET join left on and"
        " or not as by in like null case when then else end",
        "+ - * / = <> < <= > >= ( ) ; , . || ::",
        "-- ",
    ),
    "python_like": (
        "and as assert class def del elif else except for from if import in is lambda not or pass"
        " raise return try while with yield None True",
        "+ - * / ** // = == != < <= > >= ( ) { } [ ] : , . -> := % @ +=",
        "# ",
    ),
}
OTHERS = "\u00e4\u00f6\u00fc\u00e9\u00f1\u03b1\u03b2\u03bb\u0434\u0436\u044f\u4e2d\u6587\u540d"


def name(rng):
    letters = LETTERS + OTHERS if rng.randrange(10) == 0 else LETTERS
    return rng.choice(letters) + some(rng, letters + DIGITS, 0, 11)


def language_token(rng, language):
    kind = rng.randrange(100)
    words, signs, comment = LANGUAGES[language]
    if kind < 45:
        return name(rng)
    if kind < 60:
        return rng.choice(words.split())
    if kind < 68:
        digits = some(rng, DIGITS, 1, 6)
        return digits if rng.randrange(3) else digits + "." + some(rng, DIGITS, 1, 3)
    if kind < 74:
        quote = "'" if language == "sql_unicode" else '"'
        return quote + some(rng, LETTERS + DIGITS + "      ", 0, 29) + quote
    if kind < 76:
        return comment + some(rng, LETTERS + "        ", 0, 49) + "\n"
    return rng.choice(signs.split())


def language_part(language):
    return lambda rng: language_token(rng, language) + blank(rng)


def words(rng, most):
    return " ".join(some(rng, LETTERS[:-1], 1, 9) for _ in range(rng.randrange(1, most + 1)))


def iplog_address(rng):
    return quad(rng) + rng.choice(["", "", "", f":{rng.randrange(65536)}", f"/{rng.randrange(8, 33)}"])


def iplog_value(rng):
    kind = rng.randrange(10)
    if kind < 4:
        return iplog_address(rng)
    if kind == 4:
        return ":".join(f"{rng.randrange(256):02x}" for _ in range(6))
    if kind == 5:
        return f"0x{rng.randrange(1 << 24):x}"
    if kind == 6:
        return path(rng)
    if kind == 7:
        return '"' + some(rng, LETTERS + "      ", 3, 40) + rng.choice(["", "", '\\"', "\u00e9"]) + '"'
    number = str(rng.randrange(10 ** rng.randrange(1, 7)))
    return number + rng.choice(["", "", "ms", "us", "kB", "%", f".{rng.randrange(10)}s"])


def iplog_field(rng):
    if rng.randrange(3):
        return some(rng, LOWER, 2, 8) + "=" + iplog_value(rng)
    return rng.choice([iplog_value, lambda rng: " ".join(some(rng, LOWER, 2, 9) for _ in range(rng.randrange(1, 5)))])(rng)


def iplog(rng):
    at = clock(rng)
    month = rng.choice(MONTHS)
    iso = f"2024-{rng.randrange(1, 13):02}-{rng.randrange(1, 29):02}T{at}.{rng.randrange(1000):03}Z"
    time = rng.choice([f"{month} {rng.randrange(1, 29):2} {at}", iso])
    process = f"{some(rng, LOWER, 3, 8)}[{rng.randrange(100000)}]:"
    level = rng.choice(["", "INFO ", "WARNING ", "ERR ", "NOTICE "])
    fields = rng.choice([" ", " ", ", "]).join(iplog_field(rng) for _ in range(rng.randrange(1, 8)))
    return f"{time} {some(rng, LOWER, 3, 8)}-{rng.randrange(100)} {process} {level}{fields}\n"


def httplog(rng):
    address = ".".join(str(rng.randrange(1, 256)) for _ in range(4))
    if rng.randrange(6) == 0:
        address = ":".join(f"{rng.randrange(65536):x}" for _ in range(8))
    at = clock(rng)
    date = f"[{rng.randrange(1, 29):02}/{rng.choice(MONTHS)}/2024:{at} {rng.choice('+-')}0{rng.randrange(10)}00]"
    target = path(rng, 1)
    request = f'"{rng.choice(["GET", "GET", "POST", "HEAD", "BREW"])} {target} HTTP/{rng.choice(["1.1", "1.0", "2"])}"'
    user = rng.choice(["-", "-", some(rng, LOWER, 3, 9), "r\u00e9n\u00e9"])
    agent = rng.choice(["-", words(rng, 6), words(rng, 3) + ' \\"' + words(rng, 2) + '\\"', "[" + words(rng, 2)])
    size = rng.choice(["-", str(rng.randrange(10 ** rng.randrange(1, 7)))])
    seconds = rng.choice(["", "", f" {rng.randrange(10)}.{rng.randrange(1000):03}", f" {words(rng, 2)} ["])
    return f'{address} - {user} {date} {request} {rng.choice([200, 200, 304, 404, 500])} {size} "http://{some(rng, LOWER, 3, 9)}/" "{agent}"{seconds}\n'


def toml_value(rng, depth):
    kind = rng.randrange(12)
    if depth and kind < 2:
        return "[ " + ", ".join(toml_value(rng, depth - 1) for _ in range(rng.randrange(1, 6))) + " ]"
    if depth and kind == 2:
        return "{ " + ", ".join(f"{some(rng, LOWER, 1, 6)} = {toml_value(rng, depth - 1)}" for _ in range(rng.randrange(1, 4))) + " }"
    if kind < 7:
        return '"' + words(rng, 4) + rng.choice(["", "", '\\"', "\u00fc"]) + '"'
    if kind < 9:
        return rng.choice([str(rng.randrange(10 ** rng.randrange(1, 7))), f"-{rng.randrange(100)}.{rng.randrange(100)}", "0xDEAD_beef", "+1_000", "6.26e-34", "inf"])
    if kind == 9:
        return f"{rng.randrange(1970, 2030)}-0{rng.randrange(1, 10)}-{rng.randrange(10, 29)}" + rng.choice(["", "T07:32:00Z", " 07:32:00.5-08:00"])
    return rng.choice(["true", "false", "'C:\\" + some(rng, LOWER, 2, 9) + "'"])


def toml(rng):
    kind = rng.randrange(30)
    if kind == 0:
        return "\n[" + ".".join(some(rng, LOWER, 2, 9) for _ in range(rng.randrange(1, 4))) + "]\n"
    if kind == 1:
        return "# " + words(rng, 12) + "\n"
    if kind == 2:
        return some(rng, LOWER, 2, 9) + ' = """\n' + "".join(words(rng, 9) + rng.choice(["\n", ' "' + words(rng, 2) + '"\n']) for _ in range(rng.randrange(1, 6))) + '"""\n'
    key = rng.choice([some(rng, LOWER + "-_", 2, 12), some(rng, LOWER, 2, 9) + "." + some(rng, LOWER, 2, 9), '"' + words(rng, 2) + '"'])
    return key + " = " + toml_value(rng, 2) + rng.choice(["", "", "", " # " + words(rng, 6), " ?"]) + "\n"


def graphql_field(rng, depth):
    name = rng.choice(["", "", some(rng, LOWER, 1, 6) + ": "]) + some(rng, LOWER, 2, 8) + rng.choice(["", some(rng, LETTERS, 3, 8)])
    if rng.randrange(4) == 0:
        value = rng.choice([f"${some(rng, LOWER, 2, 8)}", str(rng.randrange(1000)), "true", "null", '"' + words(rng, 3) + '"', f"{rng.randrange(9)}.{rng.randrange(99)}e3"])
        name += f"({some(rng, LOWER, 2, 8)}: {value})"
    if rng.randrange(9) == 0:
        name += f" @{rng.choice(['include', 'skip'])}(if: ${some(rng, LOWER, 2, 8)})"
    indent = "  " * (4 - depth)
    if depth == 0 or rng.randrange(3):
        return f"{indent}{name}\n"
    parts = [graphql_field(rng, depth - 1) for _ in range(rng.randrange(1, 6))] + rng.choice([[], [f"{indent}  ...{some(rng, LETTERS, 4, 9)}\n"]])
    return f"{indent}{name} {{\n{''.join(parts)}{indent}}}\n"


def graphql(rng):
    kind = rng.randrange(8)
    if kind == 0:
        return "# " + words(rng, 12) + "\n"
    if kind < 4:
        text = rng.choice(["", f'"""\n{words(rng, 20)}\n"""\n'])
        fields = "".join(f"  {some(rng, LOWER, 2, 12)}: {rng.choice(['[Int!]!', 'String', 'ID!', some(rng, LETTERS, 4, 9)])}\n" for _ in range(rng.randrange(1, 9)))
        return f"{text}{rng.choice(['type', 'input', 'interface', 'extend type'])} {some(rng, LETTERS, 4, 9)} {{\n{fields}}}\n\n"
    head = f"{rng.choice(['query', 'mutation'])} {some(rng, LETTERS, 4, 9)}(${some(rng, LOWER, 2, 8)}: ID!, ${some(rng, LOWER, 2, 8)}: Int = {rng.randrange(100)})"
    return head + " {\n" + "".join(graphql_field(rng, 3) for _ in range(rng.randrange(1, 5))) + "}\n\n"


def mustache(rng):
    kind = rng.randrange(10)
    name = ".".join(some(rng, LOWER, 1, 9) for _ in range(rng.choice([1, 1, 1, 2])))
    blank = rng.choice(["", " "])
    if kind < 5:
        sign = rng.choice(["", "", "", "#", "/", "^", "&", "> "])
        return "{{" + sign + blank + name + blank + "}}"
    if kind == 5:
        return rng.choice(["{{{" + name + "}}}", "{{! " + words(rng, 8) + " }}\n", "\n", "{ "])
    tag = some(rng, LOWER, 1, 4)
    return f'<{tag} class="{words(rng, 2)}">{words(rng, 6)}</{tag}>' + rng.choice(["", "\n", "\n  "])


FURTHER = {
    "iplog": iplog, "httplog": httplog, "toml": toml, "graphql": graphql, "mustache": mustache,
    **{language: language_part(language) for language in LANGUAGES},
}
