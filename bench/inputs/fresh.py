"""Makes texts for the ten lexers of bench/held/rules on which nothing was measured while constants
were chosen.

A text is made from a fixed seed, and nothing in it is repeated as a whole."""
import random

from .fresh_programs import cobol, makefile, pascal
from .pieces import DIGITS, LOWER, MONTHS, clock, filled, quad, some
from .vocabularies import ACCENTED, HINDI, RUSSIAN, THAI, camel, number, word, words

UPPER = LOWER.upper()
BASE64 = UPPER + LOWER + DIGITS + "+/"


def spoken(rng):
    """A line of speech in Thai, which has blanks between phrases alone, in Hindi or in English."""
    kind = rng.randrange(20)
    if kind < 10:
        phrases = ("".join(word(rng, THAI) for _ in range(rng.randint(2, 7))) for _ in range(rng.randint(1, 4)))
        return " ".join(it + rng.choice(["", "", "", "ๆ", "", rng.choice(["?", "!", "..."])]) for it in phrases)
    if kind < 18:
        found = [word(rng, HINDI) + rng.choice(["", "", "", "", "", ","]) for _ in range(rng.randint(2, 9))]
        return " ".join(found) + rng.choice(["।", "।", "।", "?", "!", "…"])
    if kind == 18:
        return rng.choice([f"{word(rng).capitalize()}, {words(rng, 1, 6)}.", f"[{word(rng).upper()}]", f"{number(rng, 3)} {word(rng, HINDI)}", f"{some(rng, '๐๑๒๓๔๕๖๗๘๙', 1, 4)} {word(rng, THAI)}"])
    return rng.choice([f"♪ {word(rng, THAI)}{word(rng, THAI)} ♪", f"“{words(rng, 1, 4, HINDI)}”", f"({words(rng, 1, 3, HINDI)})", f"{word(rng).upper()}: {words(rng, 1, 4, HINDI)}।"])


def subtitles(rng):
    """A minute of a film, whose lines are numbered."""
    first, hour, minute, millis, lines = rng.randrange(1, 1500), rng.randrange(3), rng.randrange(60), rng.randrange(2000), []
    ends = rng.choice(["\n", "\r\n", "\r\n"])
    for at in range(first, first + rng.randint(6, 20)):
        till = millis + rng.randrange(700, 4500)
        times = (f"{hour:02}:{minute:02}:{it // 1000:02},{it % 1000:03}" for it in (millis, till))
        millis, speech = till + rng.randrange(20, 800), [spoken(rng) for _ in range(rng.choice([1, 1, 2]))]
        speech = [f"- {it}" for it in speech] if len(speech) == 2 and rng.randrange(2) else speech
        if rng.randrange(9) == 0:
            speech[-1] = rng.choice(["<i>{}</i>", "<b>{}</b>", '<font color="#ffff00">{}</font>', "{{\\an8}}{}"]).format(speech[-1])
        lines += [str(at), " --> ".join(times), *speech, ""]
        if till > 55000:
            break
    return ends.join(lines) + ends


def japanese():
    """Returns nouns, stems of verbs and words in katakana, from the shortest to the longest."""
    rng = random.Random("japanese")
    signs = rng.sample(range(0x4E00, 0x9FA0), 2200)
    kanji = lambda: chr(signs[int(len(signs) * rng.random() ** 2)])
    nouns = ["".join(kanji() for _ in range(length)) for length, count in ((1, 900), (2, 3000), (3, 500)) for _ in range(count)]
    stems = [kanji() + rng.choice(["", "", "え", "り", "か", "わ", "べ", "し"]) for _ in range(900)]
    foreign = ["".join(rng.choices("アイウカキクコサシスタチツテトナニノハフマミムメラリルレロンーッ", k=rng.randint(2, 6))) for _ in range(500)]
    return nouns, stems, foreign


NOUNS, STEMS, FOREIGN = japanese()
PARTICLES = "は は が が を を を に に の の の で と も から まで へ や より だけ には では とは".split()
VERB_ENDS = "た て る ない ていた ている って んだ います ました れば よう たのだ であった なかった のである と思って".split()
KANA = "かきくけこさしすせそたちつてとなにぬねのはひふへほまみむめもやゆよらりるれろわん"


def phrase(rng):
    """A noun with its particle, sometimes with a reading, or an adverb."""
    kind = rng.randrange(30)
    if kind < 20:
        return word(rng, NOUNS) + rng.choice(PARTICLES)
    if kind < 24:
        return rng.choice(["この", "その", "そして", "しかし", "もう", "まだ", "ただ", "ゆっくり", "それから", "どうしても"])
    if kind < 26:
        return word(rng, FOREIGN) + rng.choice(PARTICLES)
    if kind < 29:
        return f"{rng.choice(['', '', '', '｜'])}{word(rng, NOUNS)}《{some(rng, KANA, 2, 5)}》{rng.choice(PARTICLES)}"
    return rng.choice([f"{some(rng, '０１２３４５６７８９', 1, 4)}年", f"{word(rng).capitalize()}{rng.choice(PARTICLES)}", f"（{word(rng, NOUNS)}{word(rng, STEMS)}）", f"※［＃「{word(rng, NOUNS)}」、第{number(rng, 1)}水準{number(rng, 1)}-{number(rng, 2)}-{number(rng, 2)}］", f"『{word(rng, NOUNS)}』", f"{word(rng, FOREIGN)}・{word(rng, FOREIGN)}"])


def clause(rng):
    return "".join(phrase(rng) for _ in range(rng.randint(1, 4))) + word(rng, STEMS) + rng.choice(VERB_ENDS)


def aozora(rng):
    """A paragraph of narration or talk, or a heading."""
    kind = rng.randrange(16)
    if kind == 0:
        return f"［＃{number(rng, 1)}字下げ］{rng.choice('一二三四五六七八九十')}［＃「{word(rng, NOUNS)}」は中見出し］\n\n"
    if kind < 7:
        talk = "、".join(clause(rng) for _ in range(rng.randint(1, 3)))
        return f"「{rng.choice(['', '', 'ええ、', 'いや、', '――'])}{talk}{rng.choice(['', '', '。', '？', '！', '……', 'よ', 'ね'])}」\n"
    sentences = ("、".join(clause(rng) for _ in range(rng.choice([1, 1, 2, 3, 4]))) + rng.choice(["。", "。", "。", "。", "――", "……。", "！"]) for _ in range(rng.randint(1, 8)))
    return "\u3000" + "".join(sentences) + "\n" + rng.choice(["", "", "", "", "\n"])


def chess_move(rng):
    kind, square, check = rng.randrange(32), rng.choice("abcdefgh") + rng.choice("12345678"), rng.choice(["", "", "", "", "", "+"])
    if kind < 11:
        return square
    if kind < 14:
        return f"{rng.choice('abcdefgh')}x{square}{check}"
    if kind < 30:
        return f"{rng.choice('NNNBBQRRK')}{rng.choice(['', '', '', '', rng.choice('abcdefgh'), rng.choice('1234')])}{rng.choice(['', '', '', 'x'])}{square}{check}"
    return rng.choice(["O-O", "O-O", "O-O-O", f"{square[0]}8=Q+", "Qh7#"])


def chess_comment(rng, clocked, at):
    if clocked:
        evaluation = f"[%eval {rng.uniform(-3, 3):.2f}] " if clocked == 2 else ""
        return f" {{ {evaluation}[%clk 0:{max(0, 9 - at // 9):02}:{rng.randrange(60):02}] }}"
    kind = rng.randrange(26)
    if kind == 0:
        return f" {{{words(rng, 1, 25).capitalize()}}}"
    if kind == 1:
        return f" ({at}. {' '.join(chess_move(rng) for _ in range(rng.randint(2, 7)))})"
    return rng.choice([" $1", " $14", "!", "?!"]) if kind == 2 else ""


def chess_tags(rng, result):
    players = [f"{word(rng).capitalize()}, {word(rng).capitalize()}" for _ in "wb"]
    tags = {"Event": words(rng, 1, 4).title(), "Site": f"https://{word(rng)}.org/{some(rng, LOWER + DIGITS, 8, 8)}", "Date": f"20{rng.randrange(10, 27)}.{rng.randrange(1, 13):02}.{rng.randrange(1, 29):02}",
            "Round": number(rng, 1), "White": players[0], "Black": players[1], "Result": result, "WhiteElo": number(rng, 4), "BlackElo": number(rng, 4), "ECO": rng.choice("ABCDE") + some(rng, DIGITS, 2, 2),
            "Opening": f"{word(rng).capitalize()} {rng.choice(['Defense', 'Gambit', 'Opening'])}: {words(rng, 1, 3).title()}", "TimeControl": f"{number(rng, 3)}+{number(rng, 1)}", "Termination": "Normal"}
    names = sorted(rng.sample(list(tags), rng.randint(7, len(tags))), key=list(tags).index)
    return "".join(f'[{name} "{tags[name]}"]\n' for name in names)


def chess(rng):
    """A game: its lines have at most 80 columns, or it is in one line, with clocks."""
    result, clocked, parts = rng.choice(["1-0", "0-1", "1/2-1/2", "*"]), rng.choice([0, 0, 0, 1, 2]), []
    for at in range(1, rng.randint(8, 70)):
        white = f"{at}. {chess_move(rng)}{chess_comment(rng, clocked, at)}"
        again = f"{at}... " if white[-1] in "})" else ""
        parts.append(f"{white} {again}{chess_move(rng)}{chess_comment(rng, clocked, at)}")
    line, lines = "", []
    for part in " ".join([*parts, result]).split(" "):
        if line and not clocked and len(line) + len(part) > 79:
            lines, line = [*lines, line], ""
        line += f" {part}" if line else part
    return f"{chess_tags(rng, result)}\n" + "\n".join([*lines, line]) + "\n\n"


def coordinate(rng, most, digits):
    """A number as short as it can be written."""
    text = f"{rng.uniform(-most, most):.{rng.randrange(digits + 1)}f}"
    text = text.rstrip("0").rstrip(".") if "." in text else text
    return text.replace("0.", ".", 1) if text.startswith(("0.", "-0.")) else text.replace("-0", "0") if text == "-0" else text


def joined(numbers):
    """Returns numbers with blanks between them where they need any."""
    out = ""
    for it in numbers:
        needed = out and not it.startswith("-") and not (it.startswith(".") and "." in out[max(out.rfind(" "), out.rfind("-"), 0):])
        out += f" {it}" if needed else it
    return out


COUNTS = {"l": 2, "h": 1, "v": 1, "c": 6, "s": 4, "q": 4, "t": 2}


def command(rng, letters, most, digits):
    name = rng.choice(letters)
    if name == "a":
        radius = coordinate(rng, most, digits).lstrip("-")
        return f"{rng.choice('aaA')}{radius} {radius} 0 {rng.randrange(2)} {rng.randrange(2)} {joined([coordinate(rng, most, digits) for _ in 'xy'])}"
    if name == "z":
        return "zm" + joined([coordinate(rng, most, digits) for _ in "xy"])
    times = rng.choice([1, 1, 1, 2, 3]) if "a" in letters else rng.randint(1, 14)
    name = rng.choice([name, name, name, name.upper()])
    return name + joined([coordinate(rng, most, digits) for _ in range(COUNTS[name.lower()] * times)])


def vectors(rng):
    """A path of an icon, of a map, or with blanks wherever there can be some."""
    kind = rng.randrange(6)
    most, digits, count = [(9, 2, (4, 30)), (24, 2, (4, 30)), (12, 1, (8, 40)), (512, 2, (4, 20)), (9, 1, (10, 60)), (99, 2, (3, 20))][kind]
    letters = "lllllllllclz" if kind == 4 else "llhvhvccccsszqtlca"
    start = joined([coordinate(rng, most, digits).lstrip("-") for _ in "xy"])
    parts = [f"M{start}", *(command(rng, letters, most, digits) for _ in range(rng.randint(*count)))]
    if kind == 5:
        spaced = " ".join(f"{it[0]} {it[1:].replace('-', ' -').strip().replace(' ', ',')}" for it in parts)
        return spaced.replace("z m", "z m ") + f" l 1e-{number(rng, 1)},0 Z\n"
    return "".join(parts) + rng.choice(["z", "z", "Z", ""]) + "\n"


def title(rng, is_protein):
    gene = some(rng, UPPER, 3, 5) + number(rng, 1)
    if is_protein:
        return f">sp|{rng.choice('OPQ')}{some(rng, DIGITS + UPPER, 5, 5)}|{gene}_{rng.choice(['HUMAN', 'MOUSE', 'YEAST', 'ECOLI'])} {words(rng, 2, 7).capitalize()} OS={words(rng, 2, 2).capitalize()} OX={number(rng)} GN={gene} PE={number(rng, 1)} SV={number(rng, 1)}"
    return rng.choice([
        f">NM_{some(rng, DIGITS, 6, 9)}.{number(rng, 1)} {words(rng, 2, 3).capitalize()} {words(rng, 2, 9)} ({gene}), transcript variant {number(rng, 1)}, mRNA",
        f">chr{number(rng, 2)}:{number(rng, 8)}-{number(rng, 8)} {rng.choice('+-')}", f">{some(rng, LOWER + DIGITS, 6, 20)} len={number(rng)}"])


def sequences(rng):
    """An entry: a protein, or bases, of which some lines are masked or unknown."""
    is_protein, width, lines = rng.randrange(3) == 0, rng.choice([60, 60, 70, 80]), []
    letters, masked = "AAACDDEEEFGGGHIIKKKLLLLMNPPQRRSSSTTVVVWY" if is_protein else "AACGTT", False
    for _ in range(rng.randint(2, 14 if is_protein else 60)):
        masked = rng.randrange(5) == 0 if not masked else rng.randrange(3) > 0
        line = "".join(rng.choices(letters, k=width))
        at = rng.randrange(width)
        if masked and not is_protein:
            line = rng.choice([line.lower(), line[:at] + line[at:].lower(), line[:at].lower() + line[at:], "N" * width])
        lines.append(line)
    lines.append("".join(rng.choices(letters, k=rng.randint(1, width))) + "*" * (is_protein and rng.randrange(2)))
    return title(rng, is_protein) + "\n" + "\n".join(lines) + "\n"


def mailbox(rng):
    return f"{word(rng)}{rng.choice(['.', '_', '+', ''])}{word(rng)}@{rng.choice(['', 'mail.', 'lists.'])}{word(rng)}.{rng.choice(['com', 'org', 'de', 'ru', 'co.jp'])}"


def encoded(rng):
    kind = rng.randrange(3)
    if kind == 0:
        return f"=?utf-8?Q?{'_'.join(word(rng).capitalize() + rng.choice(['', '=C3=A9', '=C3=BC', '=E2=80=99']) for _ in range(rng.randint(1, 5)))}?="
    return f"=?{rng.choice(['UTF-8', 'UTF-8', 'koi8-r', 'ISO-2022-JP', 'iso-8859-1'])}?B?{some(rng, BASE64, 12, 52)}{rng.choice(['', '=', '=='])}?="


def person(rng):
    name = rng.choice([words(rng, 1, 3).title(), f'"{words(rng, 2, 2).title()}"', f'"{word(rng).capitalize()}, {word(rng).capitalize()} ({word(rng).upper()})"', encoded(rng), words(rng, 1, 2, ACCENTED).title(), ""])
    return f"{name} <{mailbox(rng)}>".strip() if rng.randrange(6) else mailbox(rng)


def date(rng):
    return f"{rng.choice('Mon Tue Wed Thu Fri Sat Sun'.split())}, {rng.randrange(1, 29)} {rng.choice(MONTHS)} 20{rng.randrange(10, 27)} {clock(rng)} {rng.choice('+-')}{rng.randrange(12):02}00" + rng.choice(["", "", f" ({some(rng, UPPER, 3, 4)})"])


def received(rng):
    host = f"{word(rng)}-{number(rng, 2)}.{word(rng)}.{rng.choice(['com', 'net'])}"
    return [f"Received: from {host} ({host} [{quad(rng)}])", f"by {word(rng)}.{word(rng)}.org (Postfix) with ESMTPS id {some(rng, DIGITS + 'ABCDEF', 9, 12)}",
            f"(using TLSv1.3 with cipher TLS_AES_256_GCM_SHA384 ({number(rng, 3)}/256 bits))" if rng.randrange(2) else f"for <{mailbox(rng)}>;", f"{date(rng)}"]


def signature(rng):
    chunks = [some(rng, BASE64, 64, 64) for _ in range(rng.randint(2, 5))]
    return [f"DKIM-Signature: v=1; a=rsa-sha256; c=relaxed/relaxed; d={word(rng)}.com;", f"s={word(rng)}{number(rng, 4)}; t={some(rng, '123456789', 10, 10)}; bh={some(rng, BASE64, 43, 43)}=;",
            "h=From:To:Subject:Date:Message-ID;", f"b={chunks[0]}", *chunks[1:]]


def mail_fields(rng):
    """The fields of a message, each as its lines."""
    subject = [rng.choice(["Subject: ", "Subject: Re: ", f"Subject: [{word(rng)}] "]) + rng.choice([words(rng, 2, 10).capitalize(), f"{words(rng, 1, 4, RUSSIAN)} {number(rng, 2)}", encoded(rng), f"[PATCH {number(rng, 1)}/{number(rng, 1)}] {word(rng)}: {words(rng, 3, 7)}"])]
    more = [[f"Content-Type: {rng.choice(['text/plain; charset=utf-8', 'multipart/alternative;', 'text/html; charset=iso-8859-1'])}", f'boundary="{some(rng, DIGITS + LOWER, 12, 36)}"'],
            [f"References: <{some(rng, DIGITS + LOWER, 12, 30)}@{word(rng)}.com>", *(f"<{number(rng)}.{some(rng, DIGITS, 8, 14)}@{word(rng)}.org>" for _ in range(rng.randrange(4)))],
            [f"List-Unsubscribe: <https://{word(rng)}.com/{some(rng, BASE64.replace('+/', ''), 20, 60)}>,", f"<mailto:{mailbox(rng)}>"], [f"X-{word(rng).capitalize()}-{word(rng).capitalize()}: {rng.choice(['Yes, score=', 'No, score=-', ''])}{number(rng, 1)}.{number(rng, 1)}"],
            ["MIME-Version: 1.0"], [f"Content-Transfer-Encoding: {rng.choice(['8bit', 'base64', 'quoted-printable'])}"], signature(rng), ["Cc: " + person(rng) + ",", *(person(rng) + "," for _ in range(rng.randrange(6))), person(rng)],
            [f"Authentication-Results: {word(rng)}.{word(rng)}.com;", f"dkim=pass header.i=@{word(rng)}.com header.s={word(rng)};", f"spf=pass ({word(rng)}.com: domain of {mailbox(rng)} designates {quad(rng)} as permitted sender)"]]
    first = [received(rng) for _ in range(rng.randint(1, 4))]
    return [*first, [f"From: {person(rng)}"], [f"To: {person(rng)}"], subject, [f"Date: {date(rng)}"], [f"Message-ID: <{some(rng, UPPER + DIGITS, 10, 40)}@{word(rng)}.{word(rng)}.com>"], *rng.sample(more, rng.randint(3, len(more)))]


def mail(rng):
    fold = rng.choice(["\r\n\t", "\r\n ", "\r\n        "])
    return "\r\n".join(fold.join(lines) for lines in mail_fields(rng)) + "\r\n\r\n"


def colored(rng, text):
    """Bytes after a control sequence for their color."""
    return b"\x1b[%s%dm" % (rng.choice([b"", b"1;", b"0;"]), rng.choice([30, 40]) + rng.randrange(8)) + text


def label(rng):
    return rng.choice([words(rng, 1, 4).title(), word(rng).upper(), f"({word(rng)[0].upper()}) {words(rng, 1, 3).capitalize()}", f"{word(rng).capitalize()}: {number(rng)}", f"{clock(rng)[:5]} {rng.randrange(1, 13)}/{rng.randrange(1, 29)}/9{number(rng, 1)}", words(rng, 3, 9, ACCENTED)])


def in_437(text):
    return text.encode("cp437", "replace")


def drawing(rng):
    """A row of blocks and shades, in runs of other colors."""
    runs = []
    for _ in range(rng.randint(3, 16)):
        runs.append(colored(rng, bytes([rng.choice(b"\xb0\xb1\xb2\xdb\xdb\xdc\xdd\xde\xdf\xfe\x20\x20")]) * rng.choice([1, 1, 2, 3, 5, 9])))
    return b"".join(runs)


def menu_row(rng, width):
    inside = in_437(label(rng))[:width - 2]
    return colored(rng, b"\xba ") + colored(rng, inside) + b"\x1b[%dC" % max(1, width - len(inside)) + colored(rng, b"\xba")


def message_row(rng):
    return in_437(rng.choice([words(rng, 4, 14).capitalize(), words(rng, 3, 10, ACCENTED), f"> {words(rng, 3, 12)}", f"--- {camel(rng, 2)} v{number(rng, 1)}.{number(rng, 2)}", ""]) + rng.choice([".", ",", "", "!"]))


def terminal(rng):
    """A screen: a drawing, a menu in a frame, or a message."""
    kind, width, rows = rng.randrange(3), rng.randint(24, 70), rng.randint(4, 22)
    head = rng.choice([b"\x1b[2J\x1b[H", b"\x1b[0m\x1b[%d;%dH" % (rng.randrange(1, 25), rng.randrange(1, 80)), b"\x1b[?7h", b""])
    if kind == 0:
        lines = [drawing(rng) for _ in range(rows)]
    elif kind == 1:
        lines = [colored(rng, b"\xc9" + b"\xcd" * width + b"\xbb"), *(menu_row(rng, width) for _ in range(rows)), colored(rng, b"\xc8" + b"\xcd" * width + b"\xbc")]
    else:
        lines = [message_row(rng) for _ in range(rows)] + [b"\xc4" * width]
    return head + b"\r\n".join(lines) + b"\x1b[0m\r\n"


KINDS = {it.__name__: it for it in (cobol, pascal, makefile, subtitles, aozora, chess, vectors, sequences, mail, terminal)}


def text(kind, size):
    """Returns a text of at least so many bytes, of one of `KINDS`: its last part is whole."""
    return filled(KINDS[kind], random.Random(9), size)
