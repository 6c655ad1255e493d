"""Makes texts for ten lexers of bench/held/rules.

A text is made from a fixed seed, and nothing in it is repeated as a whole."""
import random

from .held_programs import erlang, gcode, onec, proto, verilog
from .pieces import DIGITS, clock, filled, some
from .vocabularies import ACCENTED, ARABIC, HEBREW, LATIN, RUSSIAN, number, snake, word, words


def semitic_word(rng, of):
    kind = rng.randrange(60)
    if kind == 0:
        return rng.choice([word(rng).capitalize(), f"{word(rng)}'s", word(rng, ACCENTED), word(rng, RUSSIAN)])
    if kind == 1:
        digits = "٠١٢٣٤٥٦٧٨٩" if of is ARABIC else DIGITS
        return some(rng, digits, 1, 4)
    if kind == 2:
        return rng.choice([f"20{some(rng, DIGITS, 2, 2)}", f"{rng.randrange(1, 29)}/{rng.randrange(1, 13)}", f"{number(rng, 3)}.5", f"({word(rng, of)})"])
    if kind == 3:
        return rng.choice([f'"{words(rng, 1, 4, of)}"', f"«{words(rng, 1, 4, of)}»", f"{word(rng, of)}-{word(rng, of)}"])
    if kind == 4 and of is HEBREW:
        return rng.choice(["צה\"ל", "ארה\"ב", f"{word(rng, of)}־{word(rng, of)}"])
    return word(rng, of)


def semitic(rng):
    """A paragraph."""
    of, out = rng.choice([ARABIC, ARABIC, HEBREW]), []
    comma, stops = ("،", [".", ".", "؟", "!", "؛"]) if of is ARABIC else (",", [".", ".", "?", "!", ":"])
    for _ in range(rng.randint(1, 7)):
        sentence = [semitic_word(rng, of) + (comma if rng.randrange(9) == 0 else "") for _ in range(rng.randint(4, 24))]
        out.append(" ".join(sentence) + rng.choice(stops))
    return " ".join(out) + rng.choice(["\n", "\n\n"])


# Bytes with which no match of the rules of nmea begins.
NOISE = bytes([*range(1, 9), *range(14, 32), *b"#%&(){}|~^", *range(128, 256)])


def noise(rng, most):
    return bytes(rng.choices(NOISE, k=rng.randint(1, most)))


def seen(rng):
    """The fields of a satellite."""
    return [f"{rng.randrange(1, 33):02}", number(rng, 2), f"{rng.randrange(360):03}", rng.choice(["", number(rng, 2)])]


def nmea_fields(rng):
    kind, time = rng.randrange(8), f"{clock(rng).replace(':', '')}.{rng.randrange(100):02}"
    where = [f"{rng.randrange(10000):04}.{rng.randrange(10000):04}", rng.choice("NS"), f"{rng.randrange(18000):05}.{rng.randrange(10000):04}", rng.choice("EW")]
    if kind == 0:
        return ["$GPGGA", time, *where, "1", f"{rng.randrange(4, 13):02}", f"{rng.uniform(0, 3):.1f}", f"{rng.uniform(-9, 900):.1f}", "M", f"{rng.uniform(-60, 60):.1f}", "M", "", ""]
    if kind == 1:
        return ["$GPRMC", time, rng.choice("AAAV"), *where, f"{rng.uniform(0, 40):.2f}", f"{rng.uniform(0, 360):.2f}", f"{rng.randrange(1, 29):02}0126", "", "", "A"]
    if kind < 4:
        return ["$GPGSV", str(kind), number(rng, 1), f"{rng.randrange(4, 13):02}", *(field for _ in range(rng.randint(1, 4)) for field in seen(rng))]
    if kind == 4:
        return ["$GPGSA", "A", "3", *(rng.choice(["", f"{rng.randrange(1, 33):02}"]) for _ in range(12)), *(f"{rng.uniform(0, 9):.1f}" for _ in range(3))]
    if kind == 5:
        return ["$GPVTG", f"{rng.uniform(0, 360):.1f}", "T", "", "M", f"{rng.uniform(0, 40):.1f}", "N", f"{rng.uniform(0, 75):.1f}", "K", "A"]
    if kind == 6:
        return ["!AIVDM", "1", "1", "", rng.choice("AB"), some(rng, DIGITS + "ABCDEFGHIJKLMNOPQRSTUVW:;<=>?@`abcdefghijklmnopqrstuvw", 28, 56), "0"]
    return [f"$P{some(rng, 'ABCDEFGHIJKLMNOPQRSTUVWXYZ', 4, 4)}", word(rng), number(rng), word(rng)]


def nmea(rng):
    fields = [it.encode() for it in nmea_fields(rng)]
    if rng.randrange(4) == 0:
        at = rng.randrange(1, len(fields))
        fields[at] += noise(rng, 3)
    before = noise(rng, rng.choice([2, 6, 40])) if rng.randrange(7) == 0 else b""
    return before + b",".join(fields) + b"*%02X\r\n" % rng.randrange(256)


def po_text(rng, of):
    """A text of a program: a label, or sentences."""
    if rng.randrange(10) < 3:
        return words(rng, 1, 4, of).capitalize()
    sentences = [words(rng, 5, 22, of).capitalize() for _ in range(rng.randint(1, 5))]
    marks = [rng.choice([". ", ". ", ", %s. ", ".\\n", ": \\\"%d\\\". "]) for _ in sentences]
    return "".join(map("".join, zip(sentences, marks)))


def po(rng):
    lines = [f"# {words(rng, 3, 30)}"] * (rng.randrange(6) == 0) + [f"#. {words(rng, 4, 40)}"] * (rng.randrange(3) == 0)
    lines += ["#: " + " ".join(f"src/{word(rng)}/{snake(rng)}.c:{number(rng)}" for _ in range(rng.randint(1, 4)))]
    lines += [f"#, {rng.choice(['fuzzy', 'c-format', 'c-format, fuzzy', 'no-wrap'])}"] * (rng.randrange(4) == 0)
    lines += [f'#| msgid "{po_text(rng, LATIN)}"'] * (rng.randrange(12) == 0) + [f'msgctxt "{word(rng)}"'] * (rng.randrange(5) == 0)
    if rng.randrange(9) == 0:
        lines += [f'msgid "%d {word(rng)}"', f'msgid_plural "{po_text(rng, LATIN)}"']
        lines += [f'msgstr[{n}] "{po_text(rng, ACCENTED)}"' for n in range(rng.randint(2, 4))]
    else:
        lines += [f'msgid "{po_text(rng, LATIN)}"', f'msgstr "{po_text(rng, ACCENTED)}"']
    return "\n".join(lines) + "\n\n"


def abc_note(rng):
    kind = rng.randrange(40)
    if kind == 0:
        return rng.choice(["!trill!", "~", ".", "(3", "{g}"]) + rng.choice("ABcd")
    if kind == 1:
        return f'"{rng.choice("ACDEFG")}{rng.choice(["", "m", "7", "m7"])}"' + rng.choice("ABcd")
    if kind == 2:
        return f"[{''.join(rng.sample('CEGBdf', rng.randint(2, 4)))}]"
    if kind == 3:
        return rng.choice(["z2", "z", "x", "(AB)", "c-c", "d>c", "A<B"])
    return rng.choice(["", "", "", "", "", "", "^", "_", "="]) + rng.choice("ABCDEFGabcdefg") + rng.choice(["", "", "", "", ",", "'"]) + rng.choice(["", "", "", "2", "2", "3", "4", "/", "/2"])


def abc_bar(rng):
    groups = ("".join(abc_note(rng) for _ in range(rng.randint(1, 4))) for _ in range(rng.randint(1, 4)))
    return rng.choice([" ", " ", ""]).join(groups)


def abc(rng):
    head = f"X: {number(rng, 3)}\nT: {words(rng, 1, 6).title()}\nM: {rng.choice(['4/4', '6/8', '3/4', 'C|'])}\nL: 1/8\nK: {rng.choice('ADEG')}{rng.choice(['', 'm', 'dor'])}\n"
    lines = ["|:" * rng.randrange(2) + rng.choice(["|", " | "]).join(abc_bar(rng) for _ in range(rng.randint(3, 6))) + rng.choice(["|\n", "|\n", "||\n", ":|\n", "|]\n", "::\n"]) for _ in range(rng.randint(2, 12))]
    lines += [f"w: {words(rng, 3, 9)}\n"] * (rng.randrange(8) == 0) + [f"% {words(rng, 1, 8)}\n"] * (rng.randrange(4) == 0)
    return head + "".join(lines) + "\n"


def folded(line):
    """Returns the lines of at most 75 characters into which the format folds one."""
    return "\r\n ".join(line[at:at + 75] for at in range(0, len(line), 75))


def moment(rng):
    day = f"20{rng.randrange(20, 30)}{rng.randrange(1, 13):02}{rng.randrange(1, 29):02}"
    return f"{day}T{clock(rng).replace(':', '')}" + rng.choice(["Z", "Z", ""])


def calendar_lines(rng):
    lines = [f"DTSTAMP:{moment(rng)}", f"UID:{some(rng, DIGITS + 'abcdef', 8, 24)}-{some(rng, DIGITS + 'abcdef', 4, 4)}@{word(rng)}.{word(rng)}.com"]
    lines += rng.choice([[f"DTSTART:{moment(rng)}", f"DTEND:{moment(rng)}"], [f"DTSTART;TZID=Europe/{word(rng).capitalize()}:{moment(rng)}"], [f"DTSTART;VALUE=DATE:{moment(rng)[:8]}"]])
    lines += [f"SUMMARY:{words(rng, 1, 8, rng.choice([LATIN, LATIN, ACCENTED])).capitalize()}"]
    if rng.randrange(2):
        sentences = (words(rng, 4, 18, rng.choice([LATIN, LATIN, ACCENTED])).capitalize() for _ in range(rng.randint(1, 6)))
        lines += ["DESCRIPTION:" + "".join(it + rng.choice([". ", "\\n", "\\, ", ".\\n\\n"]) for it in sentences)]
    lines += [f"RRULE:FREQ={rng.choice(['WEEKLY', 'DAILY', 'MONTHLY'])};INTERVAL={number(rng, 1)};BYDAY={rng.choice(['MO,WE', 'TU', '-1FR'])};COUNT={number(rng, 2)}"] * (rng.randrange(4) == 0)
    for _ in range(rng.choice([0, 0, 1, 3])):
        lines += [f'ATTENDEE;ROLE=REQ-PARTICIPANT;PARTSTAT={rng.choice(["ACCEPTED", "DECLINED"])};CN="{words(rng, 2, 2).title()}":mailto:{word(rng)}.{word(rng)}@{word(rng)}.com']
    lines += ["BEGIN:VALARM", f"TRIGGER:-PT{number(rng, 2)}M", "ACTION:DISPLAY", "END:VALARM"] * (rng.randrange(3) == 0)
    return lines + [f"X-{word(rng).upper()}-{word(rng).upper()}:{rng.choice(['TRUE', 'BUSY', number(rng, 2), snake(rng)])}"] * rng.randrange(3)


def calendar(rng):
    lines = ["BEGIN:VEVENT", *calendar_lines(rng), f"SEQUENCE:{number(rng, 1)}", "END:VEVENT"]
    return "\r\n".join(map(folded, lines)) + "\r\n"


KINDS = {it.__name__: it for it in (onec, semitic, nmea, po, abc, verilog, gcode, erlang, proto, calendar)}


def text(kind, size):
    """Returns a text of at least so many bytes, of one of `KINDS`: its last part is whole."""
    return filled(KINDS[kind], random.Random(8), size)
