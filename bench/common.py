"""What the scripts of this folder share: tables, measured programs, and what is kept of a run."""
import hashlib
import math
import operator
import os
import pathlib
import re
import shlex
import subprocess
import sys
import tempfile

sys.dont_write_bytecode = True
BENCH = os.path.dirname(os.path.realpath(__file__))
ROOT = os.path.dirname(BENCH)


def read(path):
    with open(path, encoding="utf-8") as it:
        return it.read()


def write(path, text):
    os.makedirs(os.path.dirname(path), exist_ok=True)
    with open(path, "wb") as out:
        out.write(text if isinstance(text, bytes) else text.encode())


def said_by(words, **how):
    """Returns what a program prints, and ends the script where it fails."""
    done = subprocess.run(words, stdout=subprocess.PIPE, text=True, **how)
    if done.returncode:
        sys.exit(f"{' '.join(map(str, words))}: status {done.returncode}")
    return done.stdout


def used(words):
    """Runs a program without its output. Returns its status, its processor seconds, of the user and
    of the system, and the most MiB that it needed."""
    running = subprocess.Popen(words, stdout=subprocess.DEVNULL, stderr=subprocess.DEVNULL)
    _, status, usage = os.wait4(running.pid, 0)
    running.returncode = os.waitstatus_to_exitcode(status)
    return running.returncode, usage.ru_utime + usage.ru_stime, usage.ru_maxrss / 1024


def machine():
    """Returns a line about the machine."""
    model = re.search(r"^model name.*?: (.*)$", read("/proc/cpuinfo"), re.M)
    return f"{os.cpu_count()} cores, {model[1] if model else 'another processor'}"


def print_table(heads, rows):
    """Prints a table, each row as soon as it is there."""
    print("\n| " + " | ".join(heads) + " |\n" + "|---" * len(heads) + "|", flush=True)
    for row in rows:
        print("| " + " | ".join(map(str, row)) + " |", flush=True)


def by(other, own):
    """Returns how many times as fast something is as another, or None where one is missing."""
    return other / own if other and own else None


def shown(number, form=".2f"):
    return "-" if number is None else format(number, form)


def print_means(kinds, usual=None):
    """Prints of each kind of ratios, by the names of texts, the geometric mean over all texts or
    those that are usual, the least, and how many are below 1."""
    rows = []
    for kind, ratios in kinds.items():
        there = {text: ratio for text, ratio in ratios.items() if ratio}
        averaged = [there[text] for text in usual or there if text in there]
        if averaged:
            mean = math.exp(sum(map(math.log, averaged)) / len(averaged))
            least = min(there, key=there.get)
            below = sum(ratio < 1 for ratio in there.values())
            shown_least = f"{there[least]:.2f} ({least})"
            rows.append([kind, f"{mean:.2f}", len(averaged), shown_least, f"{below} of {len(there)}"])
    print_table(["", "Mean", "over texts", "Least", "Below 1"], rows)


class Runs:
    """The least seconds of each program on each text, and what it found there."""

    def __init__(self):
        self.best, self.found = {}, {}

    def measure(self, text, way, words, compared=None):
        """Runs a program, which prints its seconds and what it found, of which so many numbers are
        compared. The variable BEFORE has the words in front of it."""
        before = shlex.split(os.environ.get("BEFORE", ""))
        seconds, *found = said_by([*before, *words]).split()
        self.best[text, way] = min(self.best.get((text, way), math.inf), float(seconds))
        self.found.setdefault(text, {})[way] = found[:compared]

    def seconds(self, text, *ways):
        """Returns the least seconds of some programs, or None where a text has none of them."""
        return min((self.best[text, way] for way in ways if (text, way) in self.best), default=None)

    def ratio(self, text, way, others):
        """Returns how many times as fast a program is as the fastest of others."""
        return by(self.seconds(text, *others), self.seconds(text, way))

    def speed(self, text, way, size):
        """Returns the MB/s of a program on a text of so many bytes, as a cell shows it."""
        return shown(by(size / 1e6, self.seconds(text, way)), ".0f")

    def end(self):
        """Ends the script: with status 1 if programs found different things in a text."""
        different = False
        for text, found in self.found.items():
            first, *others = found
            for way in (it for it in others if any(map(operator.ne, found[it], found[first]))):
                print(f"{text}: {way} finds {found[way]}, {first} {found[first]}", file=sys.stderr)
                different = True
        sys.exit(different)


class Room:
    """The folder of a run. The variable KEEP names one that stays, for the next run."""

    def __init__(self):
        kept = os.environ.get("KEEP")
        self.temporary = None if kept else tempfile.TemporaryDirectory()
        self.folder = os.path.realpath(kept or self.temporary.name)
        os.makedirs(self.folder, exist_ok=True)

    def path(self, name, *made_from):
        """Returns the path of a file that is made from these files and texts."""
        made = hashlib.sha256()
        for it in made_from:
            made.update(pathlib.Path(it).read_bytes() if os.path.exists(it) else it.encode())
        return f"{self.folder}/{name}.{made.hexdigest()[:16]}"
