"""What the scripts of this folder share."""
import glob
import os
import re
import subprocess
import sys

sys.dont_write_bytecode = True
ROOT = os.path.dirname(os.path.dirname(os.path.dirname(os.path.realpath(__file__))))


def read(path):
    """Returns the text of a file below the top, or of one with its whole path."""
    with open(os.path.join(ROOT, path), encoding="utf-8") as it:
        return it.read()


def listed(*patterns):
    """Returns the paths of the files that git does not ignore, those among them that fit."""
    found = subprocess.run(["git", "ls-files", "-co", "--exclude-standard", "-z", *patterns], cwd=ROOT, stdout=subprocess.PIPE, text=True, check=True)
    return [path for path in found.stdout.split("\0") if path and os.path.exists(f"{ROOT}/{path}")]


def sources():
    """Yields the name of each crate and of tests/calls, its folder of sources, and the paths of
    these."""
    for folder in [*sorted(glob.glob(f"{ROOT}/crates/*/src")), f"{ROOT}/tests/calls/src"]:
        name = os.path.relpath(folder, ROOT).removeprefix("crates/").removesuffix("/src")
        yield name, folder, sorted(glob.glob(f"{folder}/**/*.rt*", recursive=True))


def items(text):
    """Yields the headings, paragraphs and items of lists of a page, each with its first line and as
    one line."""
    number, part = 0, []
    for at, line in enumerate([*text.split("\n"), ""], 1):
        if part and (not line.strip() or re.match(r" *- |#", line)):
            yield number, " ".join(part)
            part = []
        if line.strip():
            number = number if part else at
            part.append(line.rstrip() if not part else line.strip())


def has_option(word=None):
    """Returns whether the script runs with this word. With others it says what it is for."""
    if sys.argv[1:] not in ([], [word]):
        sys.exit(sys.modules["__main__"].__doc__)
    return bool(sys.argv[1:])


def finish(name, passed, faults, least=1):
    """Prints the faults and the counts, and ends the script. With fewer than so many that pass,
    what it reads was lost, or is no longer read."""
    for fault in faults:
        print(f"{name}: {fault}")
    print(f"{name}: {passed} passed, {len(faults)} failed")
    sys.exit(1 if faults or passed < least else 0)
