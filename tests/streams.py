#!/usr/bin/env python3
"""Feeds standard inputs to `logos_show FILE -`: pipes that stay open, come in pieces, are long, or
are not UTF-8.

  python3 tests/streams.py LOGOS_SHOW

Each case states its lines, messages and status. The last line is `N passed, M failed`.
"""
import os
import random
import select
import subprocess
import sys
import tempfile

RULES = '''#[derive(Logos)]
#[logos(skip r"[ \\n]+")]
enum Token {
    #[token("fast")]
    Fast,
    #[regex("[a-zäöü]+")]
    Word,
    #[regex("[0-9]+")]
    Number,
    #[regex(r#""[^"]*""#)]
    Text,
}

#[derive(Logos)]
#[logos(skip r"[ \\t]+")]
enum Prompt {
    #[token("\\n")]
    Newline,
    #[token(";")]
    End,
    #[token("->")]
    Arrow,
    #[regex("[a-z]+")]
    Word,
    #[regex("'[^']*'")]
    Text,
}

#[derive(Logos)]
#[logos(utf8 = false)]
enum Bytes {
    #[regex(b"[a-z]+")]
    Word,
    #[token(b" ")]
    Blank,
}
'''
MOST = 16 * 1024 * 1024  # the bytes in memory that docs/GUIDE.md states
SECONDS = 20


class Failed(Exception):
    """What was found in place of what a case wants."""


def wants(what, wanted, found):
    """Raises where the wanted value was not found."""
    if wanted != found:
        raise Failed(f'{what}: wanted {wanted!r}, found {found!r}')


def program(enum='Token'):
    """Returns a running program that lexes by an enum, with pipes."""
    return subprocess.Popen([PROGRAM, 't.rs', '-', '--enum', enum], stdin=subprocess.PIPE, stdout=subprocess.PIPE, stderr=subprocess.PIPE)


def given(data, enum='Token', pieces=None):
    """Returns the status, the lines before the empty line, and the messages of a program that is
    fed some bytes, perhaps in pieces."""
    with program(enum) as running:
        if pieces:
            for piece in pieces:
                os.write(running.stdin.fileno(), piece)
            data = b''
        out, err = running.communicate(data, SECONDS)
    return running.returncode, out.decode(errors='replace').split('\n\n')[0].split('\n'), err.decode()


def line(running, most=SECONDS):
    """Returns the next line, or None if none begins within so many seconds."""
    found = b''
    while select.select([running.stdout], [], [], most if not found else SECONDS)[0]:
        found += os.read(running.stdout.fileno(), 1)
        if found.endswith(b'\n'):
            return found.decode()
    return None


def decided_items_come():
    """An item is there before the pipe ends, once nothing can change it."""
    with program() as running:
        for text, wanted in ((b'fast fa', ['1:1  Fast  "fast"\n']), (b'x', []), (b' 1', ['1:6  Word  "fax"\n']),
                             ('2\ngr\xf6'.encode(), ['1:10  Number  "12"\n']), (b'"\n\n" "', ['2:1  Word  "grö"\n', '2:4  Text  "\\"\\n\\n\\""\n'])):
            os.write(running.stdin.fileno(), text)
            for item in wanted:
                wants(f'after {text}', item, line(running))
            wants(f'after {text}', None, line(running, 0.3))
        running.stdin.close()
        wants('at the end', '4:3  <error>  "\\""\n', line(running))
        wants('the status', 0, running.wait(SECONDS))


def decided_items_come_at_the_end():
    """An item that ends with what was read is there if nothing can make it longer."""
    with program('Prompt') as running:
        for text, wanted in ((b'quit;\n', ['1:1  Word  "quit"\n', '1:5  End  ";"\n', '1:6  Newline  "\\n"\n']), (b'a ->', ['2:1  Word  "a"\n', '2:3  Arrow  "->"\n']),
                             (b"'b c'", ['2:5  Text  "\'b c\'"\n']), (b'-', []), (b';', ['2:10  <error>  "-"\n', '2:11  End  ";"\n']),
                             (b'?', ['2:12  <error>  "?"\n']), ('é'.encode(), ['2:13  <error>  "é"\n'])):
            os.write(running.stdin.fileno(), text)
            for item in wanted:
                wants(f'after {text}', item, line(running))
            wants(f'after {text}', None, line(running, 0.3))
        running.stdin.close()
        wants('the status', 0, running.wait(SECONDS))


def items_after_a_long_token_come():
    """After a token that was read in many pieces, items come as soon as before it."""
    with program('Prompt') as running:
        os.write(running.stdin.fileno(), b'x' * 5000)
        wants('within the token', None, line(running, 0.3))
        os.write(running.stdin.fileno(), b'x' * 5000 + b';')
        wants('the token', '1:1  Word  "xxx', (line(running) or '')[:15])
        wants('after it', '1:10001  End  ";"\n', line(running))
        os.write(running.stdin.fileno(), b'quit\n')
        wants('the next line', ['1:10002  Word  "quit"\n', '1:10006  Newline  "\\n"\n'], [line(running), line(running)])
        running.stdin.close()
        wants('the status', 0, running.wait(SECONDS))


def pieces_are_the_whole():
    """An input in pieces gives the lines that it gives as a file."""
    numbers = random.Random(7)
    for _ in range(30):
        text = ''.join(numbers.choice(['fast', 'fas', ' ', '\n', 'grö', 'ß', '12', '"', '"a\nb"', '€', 'x' * 70]) for _ in range(numbers.randint(0, 60))).encode()
        with open('i', 'wb') as file:
            file.write(text)
        done = subprocess.run([PROGRAM, 't.rs', 'i'], capture_output=True, timeout=SECONDS, check=False)
        cuts = sorted(numbers.randint(0, len(text)) for _ in range(numbers.randint(0, 20)))
        pieces = [text[start:end] for start, end in zip([0, *cuts], [*cuts, len(text)])]
        for found in (given(text), given(text, pieces=pieces)):
            wants(f'{text} in pieces', (0, done.stdout.decode().split('\n\n')[0].split('\n')), found[:2])


def bytes_that_are_no_text():
    """The items before bytes that are not UTF-8 are there, and the message names the byte."""
    for text, items, byte in (
        (b'fast ab\xffcd', ['1:1  Fast  "fast"', '1:6  Word  "ab"', ''], 7),
        (b'\xff', [''], 0),
        (b'12 \xc3', ['1:1  Number  "12"', ''], 3),
        (b'a\xe2\x82 b', ['1:1  Word  "a"', ''], 1),
        (b'fast "a\x80', ['1:1  Fast  "fast"', '1:6  <error>  "\\"a"', ''], 7),
    ):
        message = f'error: the input is not UTF-8 at byte {byte}\n'
        wants(f'{text}', (1, items, message), given(text))
        wants(f'{text} byte by byte', (1, items, message), given(text, pieces=[text[at:at + 1] for at in range(len(text))]))
    half = b'fast ' * 300_000
    status, items, message = given(half + b'\x80' + half)
    wants('in the middle', (1, 300_001, f'error: the input is not UTF-8 at byte {len(half)}\n'), (status, len(items), message))


def characters_in_two_pieces():
    """A character whose bytes come apart is one."""
    wants('a character', (0, ['1:1  Word  "grö"', '1:4  <error>  "€"'], ''), given(b'', pieces=[b'gr\xc3', b'\xb6', b'\xe2', b'\x82', b'\xac']))


def any_bytes():
    """A lexer of bytes takes them all."""
    wants('bytes', (0, ['1:1  <error>  "\\xFF"', '1:2  Word  "ab"', '1:4  Blank  " "', '1:5  <error>  "\\xC3"'], ''), given(b'\xffab \xc3', 'Bytes'))


def a_token_that_is_too_long():
    """A token of more bytes than are in memory is an error after the items before it; one of fewer
    is none."""
    message = f'error: the token at byte 5 is longer than {MOST} bytes; name a file as the input\n'
    wants('too long', (1, ['1:1  Fast  "fast"', ''], message), given(b'fast ' + b'x' * (MOST + 1)))
    status, items, message = given(b'fast ' + b'x' * (MOST - 1) + b' 12')
    wants('not too long', (0, 3, ''), (status, len(items), message))


def memory_stays():
    """A long stream takes no more memory than docs/GUIDE.md states."""
    block = (b'fast 12 grow "a text"\n' * 3000)
    with open('long', 'wb') as file:
        for _ in range(1000):
            file.write(block)
    script = 'import resource, subprocess, sys\n' \
        'with open("long", "rb") as file, open("/dev/null", "wb") as out:\n' \
        '    done = subprocess.run(sys.argv[1:], stdin=file, stdout=out)\n' \
        'print(done.returncode, resource.getrusage(resource.RUSAGE_CHILDREN).ru_maxrss)\n'
    found = subprocess.run([sys.executable, '-c', script, PROGRAM, 't.rs', '-', '--enum', 'Token'], capture_output=True, timeout=6 * SECONDS, check=True)
    status, kilobytes = map(int, found.stdout.split())
    os.remove('long')
    wants('the status', 0, status)
    if kilobytes > 40 * 1024:
        raise Failed(f'{len(block) * 1000} bytes take {kilobytes} KiB')


def a_reader_that_leaves():
    """A closed output ends the program without a message."""
    with program() as running:
        os.write(running.stdin.fileno(), b'fast ')
        wants('the first item', '1:1  Fast  "fast"\n', line(running))
        running.stdout.close()
        os.write(running.stdin.fileno(), b'fast ')
        wants('the status', True, running.wait(SECONDS) != 0)
        wants('the message', b'', running.stderr.read())


def inputs_that_cannot_be_read():
    """A folder cannot be read."""
    folder = os.open('.', os.O_RDONLY)
    done = subprocess.run([PROGRAM, 't.rs', '-', '--enum', 'Token'], stdin=folder, capture_output=True, timeout=SECONDS, check=False)
    os.close(folder)
    wants('a folder', (3, b'', b'error: cannot read /dev/stdin: it is a folder\n'), (done.returncode, done.stdout, done.stderr))


CASES = [decided_items_come, decided_items_come_at_the_end, items_after_a_long_token_come, pieces_are_the_whole, bytes_that_are_no_text, characters_in_two_pieces, any_bytes, a_token_that_is_too_long, memory_stays, a_reader_that_leaves,
         inputs_that_cannot_be_read]


def main():
    failed = 0
    with tempfile.TemporaryDirectory() as room:
        os.chdir(room)
        with open('t.rs', 'w', encoding='utf-8') as file:
            file.write(RULES)
        for case in CASES:
            try:
                case()
            except (Failed, subprocess.SubprocessError, OSError) as why:
                failed += 1
                print(f'streams: {case.__doc__}\n  {why}'[:1000])
    print(f'{len(CASES) - failed} passed, {failed} failed')
    return failed > 0


if __name__ == '__main__':
    PROGRAM = os.path.realpath(sys.argv[1])
    sys.exit(main())
