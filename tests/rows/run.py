#!/usr/bin/env python3
"""Runs rows of tests on built programs, several at once, and compares what they give.

  run.py commands PROGRAM FILE..   for each row of the files: lays its files out in a new folder,
                                   runs the program there, and compares its status, every byte of
                                   its outputs, and every file that is there afterwards
  run.py calls PROGRAM FILE..      hands the rows of the files to the program of calls, which
                                   compares them itself

The first line of a file says how many rows it has, as `# rows: 40`. tests/README.md describes the
rest of the notation.

Prints each row that failed and why, and last a line `N passed, M failed`. The status is 1 if a row
failed, if a file has another number of rows than it says, or if it cannot be read.
"""

import concurrent.futures
import os
import re
import shutil
import subprocess
import sys
import tempfile

SECONDS = 60  # for each run of a program
BATCH = 100  # rows of calls for each run of the program of calls
STREAMS = ('stdout', 'stderr')
INPUT = 'stdin'
WAYS = {
    'begins': bytes.startswith,
    'has': bytes.__contains__,
    'ends': bytes.endswith,
}


class BadRow(Exception):
    """A row, or a file of rows, that does not follow the notation."""


def decoded(text):
    """Returns the bytes of a text, in which `⟨E9⟩` is the character with this number, `⟨xE9⟩` a
    byte, and `⟨ab×3⟩` is `ababab`."""
    front, *parts = text.split('⟨')
    out = bytearray(front.encode())
    for part in parts:
        inside, end, rest = part.partition('⟩')
        if not end:
            raise BadRow('⟨ without ⟩')
        out += special(inside) + rest.encode()
    return bytes(out)


def special(inside):
    """Returns the bytes that stand for what is between `⟨` and `⟩`."""
    unit, times, count = inside.rpartition('×')
    try:
        if times:
            return unit.encode() * int(count)
        if inside.startswith('x'):
            return bytes([int(inside[1:], 16)])
        return chr(int(inside, 16)).encode() if inside else b''
    except ValueError as error:
        raise BadRow(f'nothing is written ⟨{inside}⟩') from error


def content(lines):
    """Returns the bytes of a part. Each line ends in LF, but for a last line that ends in `⟨⟩`."""
    out = b''.join(decoded(line) + b'\n' for line in lines)
    return out[:-1] if lines and lines[-1].endswith('⟨⟩') else out


def read_lines(path):
    """Returns the lines of a file."""
    with open(path, encoding='utf-8', newline='\n') as file:
        text = file.read()
    return text.removesuffix('\n').split('\n')


def stated_rows(path, lines):
    """Returns how many rows a file says that it has."""
    first = re.fullmatch(r'# rows: (\d+)', lines[0])
    if not first:
        raise BadRow(f'{path}:1: the first line does not say how many rows there are')
    return int(first.group(1))


class Row:
    """A row of commands: its runs, which all have to give the same, the files before and after
    them, and the outputs."""

    def __init__(self, place, name):
        self.place, self.name = place, name
        self.runs, self.status, self.full = [], 0, []
        self.parts = {}

    def set(self, key, value):
        """Reads a line `key: value`."""
        if key == 'args':
            self.runs.append([os.fsdecode(decoded(word)) for word in value.split()])
        elif key == 'status':
            self.status = int(value)
        else:
            self.full = value.split()

    def files(self):
        """Yields the path and the content of each file that is there before a run."""
        for key, data in self.parts.items():
            if key != INPUT and key.split('.')[0] not in STREAMS and not key.startswith('files/'):
                yield key, data

    def wanted_files(self):
        """Yields the path and the content of each file that a run has to leave."""
        for key, data in self.parts.items():
            if key.startswith('files/'):
                yield key.removeprefix('files/'), data


class Reader:
    """Reads the rows of a file of commands, a line at a time."""

    def __init__(self, path):
        self.path, self.rows, self.shared = path, [], {}
        self.part, self.lines = None, []

    def read(self):
        """Returns the rows, and how many the file says that it has."""
        lines = read_lines(self.path)
        stated = stated_rows(self.path, lines)
        for number, line in enumerate(lines[1:], 2):
            try:
                self.take(f'{self.path}:{number}', line)
            except ValueError as error:
                raise BadRow(f'{self.path}:{number}: {error}') from error
        self.end_part()
        return self.rows, stated

    def take(self, place, line):
        """Reads a line: the name of a row or of a part, a line of a part, a setting, a note, or an
        empty line."""
        setting = re.fullmatch(r'(args|status|full):(.*)', line)
        if line.startswith('=== '):
            self.begin_row(place, line[4:])
        elif line.startswith('--- '):
            self.end_part()
            self.part = line[4:]
        elif self.part is not None:
            self.lines.append(line)
        elif self.rows and setting:
            self.rows[-1].set(*setting.groups())
        elif line and not line.startswith('# '):
            raise BadRow(f'{place}: this is no line of a row')

    def begin_row(self, place, name):
        """Begins the row with this name, which no other row of the file has."""
        self.end_part()
        if any(row.name == name for row in self.rows):
            raise BadRow(f'{place}: another row has this name: {name}')
        self.rows.append(Row(place, name))

    def end_part(self):
        """Ends a part. In front of all rows it is a text that rows share, by `--- PART = TEXT`."""
        if self.part is None:
            return
        key, equals, name = self.part.partition(' = ')
        if equals and (self.lines or name not in self.shared):
            raise BadRow(f'{self.path}: no text for the part {self.part}')
        data = self.shared[name] if equals else content(self.lines)
        parts = self.rows[-1].parts if self.rows else self.shared
        if key in parts:
            raise BadRow(f'{self.path}: two parts {key} in {self.rows[-1].name if self.rows else "front"}')
        parts[key] = data
        self.part, self.lines = None, []


def lay_out(row, outside):
    """Makes the files of a row in the folder `here` of this one, so that a path can lead to the
    folder above."""
    here = os.path.join(outside, 'here')
    os.mkdir(here)
    for name, data in row.files():
        path = os.path.join(here, name)
        os.makedirs(os.path.dirname(path), exist_ok=True)
        with open(path, 'wb') as file:
            file.write(data.replace(b'{outside}', outside.encode()))
    return here


def files_in(outside):
    """Returns the content of each file in this folder and those below."""
    found = {}
    for folder, _, names in os.walk(outside):
        for name in names:
            path = os.path.join(folder, name)
            with open(path, 'rb') as file:
                found[os.path.relpath(path, outside)] = file.read()
    return found


def differences(what, found, wanted):
    """Returns how a value differs from the wanted one: nothing, or one line."""
    return [] if found == wanted else [f'{what}: {found}, wanted {wanted}']


def stream_differences(row, name, found):
    """Compares an output with its part, or with its parts `.begins`, `.has` and `.ends`."""
    partial = [(way, row.parts[f'{name}.{way}']) for way in WAYS if f'{name}.{way}' in row.parts]
    if not partial:
        return differences(name, found, row.parts.get(name, b''))
    return [f'{name}: {found}, wanted: {way} {part}' for way, part in partial if not WAYS[way](found, part)]


def file_differences(row, before, after):
    """Compares the files after a run with those before it and those that it has to leave."""
    wanted = dict(before)
    for name, data in row.wanted_files():
        wanted[os.path.normpath(os.path.join('here', name))] = data
    wrong = []
    for path in sorted(set(after) | set(wanted)):
        wrong += differences(f'file {path}', after.get(path), wanted.get(path))
    return wrong


def run_in(program, row, words, outside):
    """Runs a command of a row in this folder, and returns what is wrong."""
    here = lay_out(row, outside)
    before = files_in(outside)
    with open('/dev/full', 'wb') as full:
        out, err = (full if stream in row.full else subprocess.PIPE for stream in STREAMS)
        ended = subprocess.run(
            [program, *words], cwd=here, input=row.parts.get(INPUT, b''), stdout=out, stderr=err, timeout=SECONDS, check=False
        )
    wrong = differences('status', ended.returncode, row.status)
    wrong += stream_differences(row, 'stdout', ended.stdout or b'')
    wrong += stream_differences(row, 'stderr', ended.stderr or b'')
    return wrong + file_differences(row, before, files_in(outside))


def run_row(program, row):
    """Runs all commands of a row, each in a new folder, and returns what is wrong."""
    wrong = [] if row.runs else ['no line of args']
    for words in row.runs:
        outside = tempfile.mkdtemp(prefix='rows')
        try:
            wrong += [f'{" ".join(words)}: {line}' for line in run_in(program, row, words, outside)]
        except (subprocess.TimeoutExpired, OSError) as error:
            wrong.append(str(error))
        finally:
            shutil.rmtree(outside, ignore_errors=True)
    return wrong


def run_commands(program, row):
    """Runs a row of commands. Returns whether it passed, and what is wrong."""
    faults = run_row(program, row)
    return not faults, ['\n  '.join([f'{row.place}: {row.name}', *faults])] if faults else []


def commands_of(path):
    """Returns the rows of a file of commands, each as one row, and how many the file says that it
    has."""
    rows, stated = Reader(path).read()
    return [(row, 1) for row in rows], stated


def batches(path):
    """Cuts a file of calls into runs of rows. Returns lists of lines with their numbers of rows,
    each with its header in front, and how many rows the file says that it has."""
    lines = read_lines(path)
    stated = stated_rows(path, lines)
    header, cut, count, found = '', [], 0, []
    for line in lines:
        cut.append(line)
        if line.startswith('== '):
            header = line
        count += ' => ' in line or line.endswith(' =>')
        if count == BATCH:
            found.append((cut, count))
            cut, count = [header], 0
    found.append((cut, count))
    return found, stated


def run_calls(program, lines):
    """Hands a run of rows to the program of calls. Returns how many passed, and what is wrong."""
    ended = subprocess.run(
        [program], input=('\n'.join(lines) + '\n').encode(), stdout=subprocess.PIPE, timeout=5 * SECONDS, check=False
    )
    *output, last = ended.stdout.decode(errors='replace').removesuffix('\n').split('\n')
    counts = re.fullmatch(r'(\d+) passed, (\d+) failed', last)
    if not counts:
        return 0, [f'the program of calls ends with status {ended.returncode} and the line {last!r}']
    passed, failed = map(int, counts.groups())
    if (ended.returncode == 0) != (failed == 0):
        output.append(f'the program of calls ends with status {ended.returncode} and {last!r}')
    return passed, output


# What reads a file of each kind, and what runs a part of it.
KINDS = {'commands': (commands_of, run_commands), 'calls': (batches, run_calls)}


def run(kind, program, paths):
    """Runs the rows of these files. Returns how many passed, how many failed, and what is wrong."""
    read, run_part = KINDS[kind]
    parts, wrong, passed = [], [], 0
    for path in paths:
        found, stated = read(path)
        wrong += differences(f'{path}: rows', sum(count for _, count in found), stated)
        parts += found
    with concurrent.futures.ThreadPoolExecutor(len(os.sched_getaffinity(0))) as pool:
        for count, faults in pool.map(lambda part: run_part(program, part[0]), parts):
            passed += count
            wrong += faults
    return passed, sum(count for _, count in parts) - passed, wrong


def main(kind, program, *paths):
    """Runs the rows, prints what failed and the counts, and returns the status."""
    try:
        passed, failed, wrong = run(kind, os.path.abspath(program), paths)
    except (BadRow, OSError, UnicodeDecodeError, subprocess.TimeoutExpired) as error:
        passed, failed, wrong = 0, 0, [str(error)]
    if not passed:
        wrong.append('no row passed')
    for text in wrong:
        print(text)
    print(f'{passed} passed, {max(failed, int(bool(wrong)))} failed')
    return 1 if wrong or failed else 0


if __name__ == '__main__':
    if len(sys.argv) < 4 or sys.argv[1] not in KINDS:
        sys.exit(__doc__)
    sys.exit(main(*sys.argv[1:]))
