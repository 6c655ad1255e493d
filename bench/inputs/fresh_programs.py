"""Makers of parts of programs, for `fresh.py`."""
from .pieces import DIGITS, some
from .vocabularies import camel, number, snake, word, words

FIELDS = ["WS-", "WS-", "WS-", "LK-", "FD-", "", ""]


def cobol_name(rng):
    """A name of data, as long as its shop's rules want it."""
    return rng.choice(FIELDS) + "-".join(word(rng).upper() for _ in range(rng.choice([1, 2, 2, 3]))) + rng.choice(["", "", "", "-CNT", "-AMT", "-DATE", "-FLAG", "-" + number(rng, 1)])


def cobol_paragraph(rng):
    return f"{rng.randrange(1, 99)}00-{cobol_name(rng)}"


def cobol_value(rng):
    kind = rng.randrange(12)
    if kind < 7:
        return cobol_name(rng)
    if kind < 9:
        return rng.choice([number(rng, 3), "1", "0", f"{number(rng, 2)}.{some(rng, DIGITS, 2, 2)}"])
    if kind < 10:
        return rng.choice(["SPACES", "ZERO", "LOW-VALUES", "TRUE", "HIGH-VALUES"])
    return rng.choice([f'"{words(rng, 1, 5).upper()}"', f"'{some(rng, 'ABCNXY', 1, 2)}'", f"{cobol_name(rng)}({cobol_name(rng)})", f"{cobol_name(rng)}({number(rng, 1)}:{number(rng, 1)})"])


def cobol_test(rng):
    sign = rng.choice(["=", "=", ">", "<", ">=", "NOT =", "IS EQUAL TO", "IS GREATER THAN", "IS NOT NUMERIC AND"])
    more = f" {rng.choice(['AND', 'OR'])} {cobol_name(rng)} {rng.choice(['=', '>', 'NOT ='])} {cobol_value(rng)}" if rng.randrange(4) == 0 else ""
    return f"{cobol_name(rng)} {sign} {cobol_value(rng)}{more}"


COBOL_LINES = [
    "MOVE {v} TO {n}", "MOVE {v} TO {n}", "MOVE {v} TO {n}", "MOVE {n} OF {n} TO {n}", "ADD {v} TO {n}", "SUBTRACT {v} FROM {n} GIVING {n}",
    "COMPUTE {n} ROUNDED = {v} * {v} + ({n} / {d})", "DISPLAY \"{w}: \" {n} UPON CONSOLE", "DISPLAY '{w}'", "PERFORM {p}", "PERFORM {p} THRU {p}",
    "PERFORM {p} VARYING {n} FROM 1 BY 1 UNTIL {t}", "SET {n} TO TRUE", "INITIALIZE {n} REPLACING NUMERIC DATA BY ZERO", "MULTIPLY {v} BY {n}",
    "DIVIDE {n} INTO {n} GIVING {n} REMAINDER {n}", "CALL '{u}' USING BY REFERENCE {n} BY CONTENT {n}", "OPEN INPUT {n} OUTPUT {n}", "CLOSE {n}",
    "WRITE {n} FROM {n} AFTER ADVANCING {d} LINES", "REWRITE {n}", "INSPECT {n} TALLYING {n} FOR ALL SPACES", "ACCEPT {n} FROM DATE",
    "STRING {n} DELIMITED BY SIZE {v} DELIMITED BY SPACE INTO {n}", "UNSTRING {n} DELIMITED BY ',' INTO {n} {n} {n}", "START {n} KEY IS GREATER THAN {n}",
    "SORT {n} ON ASCENDING KEY {n} USING {n} GIVING {n}", "GO TO {p}", "CONTINUE", "RELEASE {n} FROM {n}"]


def filled_in(rng, form):
    """Returns a form with other names and values for its letters."""
    parts = form.split("{")
    makers = {"v": cobol_value, "n": cobol_name, "p": cobol_paragraph, "t": cobol_test, "d": lambda it: number(it, 2),
              "w": lambda it: words(it, 1, 5).upper(), "u": lambda it: word(it).upper() + number(it, 2)}
    return parts[0] + "".join(makers[part[0]](rng) + part[2:] for part in parts[1:])


def cobol_statement(rng, indent):
    blanks, kind, more = " " * indent, rng.randrange(14), indent < 32
    if kind == 0 and more:
        other = f"{blanks}ELSE\n{cobol_body(rng, indent + 4)}" if rng.randrange(2) else ""
        return f"{blanks}IF {cobol_test(rng)}{rng.choice(['', ' THEN'])}\n{cobol_body(rng, indent + 4)}{other}{blanks}END-IF\n"
    if kind == 1 and more:
        arms = "".join(f"{blanks}    WHEN {cobol_value(rng)}\n{cobol_body(rng, indent + 8)}" for _ in range(rng.randint(1, 3)))
        return f"{blanks}EVALUATE {cobol_name(rng)}\n{arms}{blanks}    WHEN OTHER\n{blanks}        CONTINUE\n{blanks}END-EVALUATE\n"
    if kind == 2:
        return f"{blanks}READ {cobol_name(rng)} NEXT RECORD\n{blanks}    AT END SET {cobol_name(rng)} TO TRUE\n{blanks}END-READ\n"
    if kind == 3:
        return f"{blanks}*> {words(rng, 2, 9)}\n"
    return f"{blanks}{filled_in(rng, rng.choice(COBOL_LINES))}\n"


def cobol_body(rng, indent):
    return "".join(cobol_statement(rng, indent) for _ in range(rng.randint(1, 4)))


def cobol_picture(rng):
    size = number(rng, 2)
    return rng.choice([f"X({size})", f"X({size})", f"9({size})", f"S9({number(rng, 1)})V99 COMP-3", "S9(9) BINARY", "Z,ZZZ,ZZ9.99-", "99", "XX", "9(4)V9(2)", "$$,$$9.99"])


def cobol_data(rng):
    lines = [f"       01  {cobol_name(rng)}.\n"]
    for _ in range(rng.randint(2, 9)):
        kind, name = rng.randrange(9), rng.choice([cobol_name(rng), cobol_name(rng), "FILLER"])
        if kind == 0:
            lines.append(f"           88  {cobol_name(rng)} VALUE {rng.choice(['TRUE', chr(39) + 'Y' + chr(39), number(rng, 2)])}.\n")
        elif kind == 1:
            lines.append(f"           05  {cobol_name(rng)} OCCURS {number(rng, 2)} TIMES\n               INDEXED BY {cobol_name(rng)}.\n")
        else:
            value = rng.choice(["", "", f" VALUE {rng.choice(['SPACES', 'ZERO', '0', 'LOW-VALUES'])}", f" VALUE '{words(rng, 1, 4).upper()}'"])
            lines.append(f"           {rng.choice(['05', '05', '10', '15'])}  {name:<20} PIC {cobol_picture(rng)}{value}.\n")
    return "".join(lines)


def cobol(rng):
    """The head of a program, records, or a paragraph of procedures."""
    kind = rng.randrange(12)
    if kind == 0:
        name = word(rng).upper() + number(rng, 3)
        select = f"           SELECT {cobol_name(rng)} ASSIGN TO '{word(rng).upper()}'\n               ORGANIZATION IS {rng.choice(['SEQUENTIAL', 'INDEXED', 'RELATIVE'])}\n               ACCESS MODE IS {rng.choice(['DYNAMIC', 'RANDOM'])}\n               FILE STATUS IS {cobol_name(rng)}.\n"
        return f"       IDENTIFICATION DIVISION.\n       PROGRAM-ID. {name}.\n       ENVIRONMENT DIVISION.\n       INPUT-OUTPUT SECTION.\n       FILE-CONTROL.\n{select}       DATA DIVISION.\n       WORKING-STORAGE SECTION.\n"
    if kind < 5:
        return cobol_data(rng)
    head = rng.choice(["", "", f"      *> {words(rng, 3, 14)}\n", f"       PROCEDURE DIVISION USING {cobol_name(rng)}.\n"])
    return f"{head}       {cobol_paragraph(rng)}.\n{cobol_body(rng, 11)}{cobol_body(rng, 11)}{rng.choice(['           EXIT.', '           GOBACK.', '           .'])}\n\n"


def in_a_case(rng, text):
    """Returns a text as some write it: in capital letters."""
    return text.upper() if rng.randrange(12) == 0 else text


def pascal_number(rng):
    return rng.choice([number(rng, 1), number(rng, 2), number(rng, 4), f"${rng.randrange(1 << 16):04X}", f"{number(rng, 2)}.{number(rng, 2)}", f"1.5e-{number(rng, 1)}", f"2E{number(rng, 1)}"])


def pascal_range(rng):
    low = rng.randrange(200)
    return rng.choice([f"0..{number(rng, 3)}", f"1..{number(rng, 2)}", f"{low}..{low + 1 + rng.randrange(99)}", "'a'..'z'", "'0'..'9'", f"${low:02X}..$FF", f"-{low}..{low}", "#0..#31", f"Low({camel(rng, 2)})..High({camel(rng, 2)})"])


def pascal_value(rng, depth):
    kind = rng.randrange(13 if depth else 7)
    if kind < 4:
        return camel(rng, 3) + rng.choice(["", "", "", f".{camel(rng, 2)}", f"[{camel(rng, 1)}]", "^", f"[{number(rng, 1)}]"])
    if kind < 6:
        return pascal_number(rng)
    if kind < 7:
        return rng.choice([f"'{words(rng, 1, 6)}'", f"'{word(rng)}''s'", "nil", "True", "False", f"#{number(rng, 2)}", f"'{word(rng)}'#13#10"])
    if kind < 9:
        return f"{camel(rng, 2)}({', '.join(pascal_value(rng, depth - 1) for _ in range(rng.randint(1, 3)))})"
    if kind < 10:
        return f"{camel(rng, 2)} in [{', '.join(pascal_range(rng) for _ in range(rng.randint(1, 4)))}]"
    sign = rng.choice("+ - * / = <> < >= and or div mod shl".split())
    return rng.choice(["({} {} {})", "{} {} {}"]).format(pascal_value(rng, depth - 1), sign, pascal_value(rng, depth - 1))


def pascal_statement(rng, indent):
    blanks, kind, more = "  " * indent, rng.randrange(13), indent < 6
    if kind == 0 and more:
        other = f"{blanks}end\n{blanks}else\n{blanks}begin\n{pascal_body(rng, indent + 1)}" if rng.randrange(2) else ""
        return f"{blanks}{in_a_case(rng, 'if')} {pascal_value(rng, 2)} {in_a_case(rng, 'then')}\n{blanks}begin\n{pascal_body(rng, indent + 1)}{other}{blanks}end;\n"
    if kind == 1 and more:
        return f"{blanks}for {camel(rng, 1)} := {pascal_value(rng, 1)} {rng.choice(['to', 'downto'])} {pascal_value(rng, 1)} do\n{pascal_statement(rng, indent + 1)}"
    if kind == 2 and more:
        arms = "".join(f"{blanks}  {', '.join(rng.choice([pascal_range(rng), pascal_number(rng)]) for _ in range(rng.randint(1, 4)))}: {pascal_statement(rng, indent + 2).lstrip()}" for _ in range(rng.randint(2, 7)))
        return f"{blanks}case {pascal_value(rng, 1)} of\n{arms}{blanks}else\n{pascal_statement(rng, indent + 1)}{blanks}end;\n"
    if kind == 3:
        return rng.choice([f"{blanks}// {words(rng, 2, 11)}\n", f"{blanks}{{ {words(rng, 2, 11)} }}\n", f"{blanks}(* {words(rng, 2, 9)} *)\n"])
    if kind == 4 and indent == 1:
        return pascal_block(rng, blanks, pascal_body(rng, indent + 1))
    if kind == 4 and more:
        return f"{blanks}try\n{pascal_body(rng, indent + 1)}{blanks}finally\n{blanks}  {camel(rng, 2)}.Free;\n{blanks}end;\n"
    if kind < 8:
        return f"{blanks}{camel(rng, 3)}{rng.choice(['', f'.{camel(rng, 2)}'])}({', '.join(pascal_value(rng, 1) for _ in range(rng.randint(1, 3)))});\n"
    return f"{blanks}{camel(rng, 3)}{rng.choice(['', '', f'[{camel(rng, 1)}]', f'.{camel(rng, 1)}'])} := {pascal_value(rng, 3)};\n"


def pascal_block(rng, blanks, body):
    """A loop, or another block that is not frequent."""
    return rng.choice([
        f"{blanks}repeat\n{body}{blanks}until {pascal_value(rng, 2)};\n", f"{blanks}while not {pascal_value(rng, 2)} do\n{blanks}begin\n{body}{blanks}end;\n",
        f"{blanks}with {pascal_value(rng, 0)} do\n{blanks}begin\n{body}{blanks}end;\n", f"{blanks}inherited {camel(rng, 1)}(@{camel(rng, 2)}, [{camel(rng, 1)}]);\n",
        f"{blanks}try\n{body}{blanks}except\n{blanks}  raise E{camel(rng, 2)}.Create('{words(rng, 2, 6)}');\n{blanks}end;\n"])


def pascal_class(rng):
    methods = "".join(f"    {rng.choice(['procedure', 'function'])} {camel(rng, 3)}({camel(rng, 1)}: Integer){rng.choice([';', ': string;', '; virtual;', '; override;'])}\n" for _ in range(rng.randint(1, 6)))
    fields = "".join(f"    F{camel(rng, 2)}: {rng.choice(['Integer', 'string', 'Boolean', f'T{camel(rng, 2)}'])};\n" for _ in range(rng.randint(1, 6)))
    named = f"    property {camel(rng, 2)}: Integer read F{camel(rng, 2)} write Set{camel(rng, 2)};\n"
    return f"  T{camel(rng, 2)} = class(T{camel(rng, 1)})\n  private\n{fields}  public\n    constructor Create;\n    destructor Destroy; override;\n{methods}{named}  end;\n"


def pascal_body(rng, indent):
    return "".join(pascal_statement(rng, indent) for _ in range(rng.randint(1, 4)))


def pascal_types(rng):
    lines = [in_a_case(rng, "type") + "\n"]
    for _ in range(rng.randint(1, 6)):
        kind = rng.randrange(5)
        if kind == 4:
            lines.append(pascal_class(rng))
        elif kind == 0:
            lines.append(f"  T{camel(rng, 2)} = {pascal_range(rng)};\n")
        elif kind == 1:
            lines.append(f"  T{camel(rng, 2)} = array[{pascal_range(rng)}, {pascal_range(rng)}] of {rng.choice(['Integer', 'Byte', 'Double', 'string'])};\n")
        elif kind == 2:
            fields = "".join(f"    {camel(rng, 2)}: {rng.choice(['Integer', 'Boolean', f'T{camel(rng, 2)}', f'string[{number(rng, 2)}]'])};\n" for _ in range(rng.randint(2, 7)))
            lines.append(f"  T{camel(rng, 2)} = packed record\n{fields}  end;\n")
        else:
            lines.append(f"  T{camel(rng, 2)} = ({', '.join(word(rng)[:2] + camel(rng, 2) for _ in range(rng.randint(3, 9)))});\n")
    return "".join(lines) + "\n"


def pascal_table(rng):
    rows = ",\n".join(f"    ({', '.join(pascal_number(rng) for _ in range(rng.randint(4, 10)))})" for _ in range(rng.randint(2, 8)))
    return f"const\n  {camel(rng, 2)}: array[{pascal_range(rng)}, {pascal_range(rng)}] of Integer = (\n{rows}\n  );\n\n"


def pascal(rng):
    """The head of a unit, types, a table, or a function."""
    kind = rng.randrange(10)
    if kind == 0:
        return f"unit {camel(rng, 2)};\n\n{{$mode objfpc}}{{$H+}}\n{{ {words(rng, 10, 60)} }}\n\ninterface\n\nuses\n  {', '.join(camel(rng, 2) for _ in range(rng.randint(2, 8)))};\n\n"
    if kind < 3:
        return pascal_types(rng)
    if kind < 4:
        return pascal_table(rng)
    given = "; ".join(f"{rng.choice(['', 'const ', 'var '])}{camel(rng, 2)}: {rng.choice(['Integer', 'string', f'T{camel(rng, 2)}'])}" for _ in range(rng.randint(1, 3)))
    head = rng.choice([f"function T{camel(rng, 2)}.{camel(rng, 2)}({given}): Boolean;", f"procedure {camel(rng, 3)}({given});", f"constructor T{camel(rng, 2)}.Create({given});"])
    own = "".join(f"  {camel(rng, 1)}, {camel(rng, 2)}: {rng.choice(['Integer', 'Double', pascal_range(rng)])};\n" for _ in range(rng.randint(1, 3)))
    return f"{head}\n{in_a_case(rng, 'var')}\n{own}{in_a_case(rng, 'begin')}\n{pascal_body(rng, 1)}{pascal_body(rng, 1)}{in_a_case(rng, 'end')};\n\n"


MAKE_WORDS = ["{0}/{1}.c", "$(SRC)/{0}_{1}.o", "{0}.h", "$({2})", "$({2}_{1})", "-I{0}/{1}", "-D{2}={3}", "-l{0}", "--{0}-{1}", "-O2", "{0}_{1}", "{0}", "{1}", "lib{0}.so.{3}"]


def make_word(rng):
    return rng.choice(MAKE_WORDS).format(word(rng), word(rng), word(rng).upper(), number(rng, 1))


def make_words(rng, least, most):
    """Words, on several lines if there are many."""
    found = [make_word(rng) for _ in range(rng.randint(least, most))]
    return (" \\\n\t" if len(found) > 5 else " ").join(found)


def make_call(rng):
    return rng.choice([f"$(wildcard {word(rng)}/*.c)", f"$(patsubst %.c,%.o,$({word(rng).upper()}))", f"$(shell {word(rng)} --{word(rng)} 2>/dev/null | head -n {number(rng, 1)})", f"$(addprefix {word(rng)}/,$({snake(rng, 2).upper()}))", f"$(notdir $(CURDIR))", f"${{{snake(rng, 2).upper()}}}", f"$(if $({word(rng).upper()}),{word(rng)},{word(rng)})"])


def make_recipe(rng):
    kind = rng.randrange(9)
    if kind < 3:
        return f"{rng.choice(['', '@', '@', '-'])}$({rng.choice(['CC', 'LD', 'AR', 'INSTALL', word(rng).upper()])}) {make_words(rng, 1, 7)} -o $@ $<"
    if kind < 4:
        return f'@echo "{words(rng, 1, 7)} $@"'
    if kind < 5:
        return f"@for {word(rng)} in {make_words(rng, 1, 4)}; do \\\n\t\t{word(rng)} $${word(rng)} || exit {number(rng, 1)}; \\\n\tdone"
    if kind < 6:
        return f"sed -e 's|@{word(rng)}@|$({word(rng).upper()})|g' $< > $@.{word(rng)} && mv $@.{word(rng)} $@"
    if kind < 7:
        return f"rm -rf {make_words(rng, 1, 6)} *.{word(rng)}"
    return f"{word(rng)} {make_words(rng, 1, 6)}"


def makefile(rng):
    """A comment, variables, a condition, or a rule."""
    kind, name = rng.randrange(10), snake(rng, 2)
    if kind == 0:
        return "".join(f"# {words(rng, 4, 16)}\n" for _ in range(rng.randint(1, 5))) + "\n"
    if kind < 4:
        return "".join(f"{snake(rng, 2).upper()} {rng.choice(['=', ':=', ':=', '?=', '+='])} {rng.choice([make_call(rng), make_words(rng, 1, 3), make_words(rng, 3, 14)])}\n" for _ in range(rng.randint(1, 6))) + "\n"
    if kind == 4:
        head = rng.choice([f"ifeq ($({name.upper()}),{word(rng)})", f"ifdef {name.upper()}", f'ifneq "$({name.upper()})" ""'])
        return f"{head}\n  {snake(rng, 2).upper()} += {make_words(rng, 1, 5)}\nelse\n  {snake(rng, 2).upper()} := {make_call(rng)}\nendif\n\n"
    if kind == 5 and rng.randrange(4) == 0:
        return f"define {name.upper()}\n{word(rng)}:: {make_words(rng, 1, 4)}\n\t{make_recipe(rng)}\nendef\n\n"
    if kind == 5:
        return rng.choice([f".PHONY: {word(rng)} {word(rng)} clean\n", f"-include $({word(rng).upper()}:.o=.d)\n", f"include {word(rng)}/{word(rng)}.mk\n", f"export {name.upper()}\n"])
    target = rng.choice([f"%.o: %.c {make_words(rng, 0, 3)}", f"$({name.upper()}): {make_words(rng, 1, 9)} | {word(rng)}", f"{name}: {make_words(rng, 0, 6)}", f"{word(rng)}/{word(rng)}.{word(rng)}: {make_words(rng, 1, 3)}"])
    return f"{target}\n" + "".join(f"\t{make_recipe(rng)}\n" for _ in range(rng.randint(1, 6))) + "\n"
