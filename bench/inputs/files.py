"""Makes texts of files on this machine, of the kinds in `KINDS`, and `asm`.

The sums of their paths below their folder say in which order files are taken. Those that are longer
than a mebibyte, are not UTF-8 or have zeros are left out. They are repeated where they are shorter
than the text."""
import ast
import glob
import hashlib
import json
import os
import subprocess
import sysconfig
import tempfile
import warnings

LONGEST = 1 << 20
LEAST = 1 << 18
# how many bytes at the end of a text may be blanks
SPARE = 1 << 12
ROOT = os.path.dirname(os.path.dirname(os.path.dirname(os.path.realpath(__file__))))
SCANNERS = f"{ROOT}/bench/lexer"
# folders whose files are wrong on purpose, tables, or made by the toolchain
LEFT_OUT = {"test", "tests", "lib2to3", "site-packages", "encodings", "idlelib", "out"}
# with these words contracts begin
CONTRACTS = ("requires ", "ensures ", "ghost ")


def said_by(*command):
    """Returns the first word that a command prints, or nothing where there is no such command."""
    try:
        said = subprocess.run(command, stdout=subprocess.PIPE, text=True, check=True).stdout
    except (OSError, subprocess.CalledProcessError):
        return ""
    return (said.split() or [""])[0]


def toolchain():
    """Returns the folder of the toolchain's sources."""
    page = said_by("rt", "doc")
    return f"{os.path.dirname(os.path.realpath(page))}/rattle" if page else ""


def without_contracts(text):
    """Returns a source in Rattle without what it does not share with Rust: contracts, and lines
    that have signs of another language outside of comments."""
    kept, depth = [], 0
    for line in text.split("\n"):
        if depth or line.lstrip().startswith(CONTRACTS):
            depth = max(0, depth + line.count("{") - line.count("}"))
        elif line.split("//")[0].isascii():
            kept.append(line)
    return "\n".join(kept)


def with_closed_blocks(text):
    """Returns a page if each of its blocks of code is closed, and nothing else."""
    return "" if text.count("```") % 2 else text


def read_by(reads):
    """Returns a function that returns a text if it can be read so, and nothing else."""
    def checked(text):
        try:
            reads(text)
        except (ValueError, SyntaxError, RecursionError):
            return ""
        return text
    return checked


# of each kind: the folders, the ending of the names, and what is done to a file
KINDS = {
    "json_files": (lambda: ["/usr/share", "/usr/lib"], ".json", read_by(json.loads)),
    "rust": (lambda: [f"{ROOT}/crates", toolchain()], ".rt", without_contracts),
    "python": (lambda: [sysconfig.get_paths()["stdlib"]], ".py", read_by(ast.parse)),
    "css_files": (lambda: ["/usr/share", "/usr/lib", said_by("rustc", "--print", "sysroot")], ".css", str),
    "c": (lambda: ["/usr/include"], ".h", str),
    "xml": (lambda: ["/usr/share"], ".xml", str),
    "markdown": (lambda: [ROOT, "/usr/share", "/usr/lib"], ".md", with_closed_blocks),
}


def order(folder, path):
    """Returns what decides when a file of a folder is taken."""
    return hashlib.sha256(os.path.relpath(path, folder).encode("utf-8", "surrogateescape")).digest()


def paths(folders, ending):
    """Returns the paths of a kind."""
    found = []
    for folder in filter(None, folders):
        for at, below, names in os.walk(folder):
            below[:] = [name for name in below if name not in LEFT_OUT]
            found += [(order(folder, f"{at}/{name}"), f"{at}/{name}") for name in names if name.endswith(ending)]
    return [path for _, path in sorted(found)]


def contents(path):
    """Returns the text of a file, or nothing where it does not serve."""
    if not os.path.isfile(path) or os.path.islink(path) or os.path.getsize(path) > LONGEST:
        return ""
    try:
        with open(path, encoding="utf-8", newline="") as it:
            text = it.read()
    except (OSError, UnicodeDecodeError):
        return ""
    return "" if "\0" in text else text


def assembled():
    """Yields what gcc makes of the scanners for re2c, those with the letters of all scripts left
    out."""
    with tempfile.TemporaryDirectory() as room:
        for path in sorted(glob.glob(f"{SCANNERS}/re2c/*.re")):
            if "unicode_categories" not in contents(path):
                subprocess.run(["re2c", "--utf8", "-o", f"{room}/scanner.c", path], check=True)
                for level in ("-O0", "-O2"):
                    words = ["-I", SCANNERS, "-o", f"{room}/scanner.s", f"{room}/scanner.c"]
                    subprocess.run(["gcc", level, "-S", *words], check=True)
                    yield contents(f"{room}/scanner.s")


def texts(kind):
    """Yields the files of a kind."""
    if kind == "asm":
        yield from assembled()
        return
    folders, ending, made = KINDS[kind]
    for path in paths(folders(), ending):
        yield made(contents(path))


def fitting(files, left):
    """Yields files that fit one after the other into what is left of a text."""
    for text in files:
        if len(text) <= left:
            left -= len(text)
            yield text
        if left < SPARE:
            return


def filled(files, size):
    """Returns files in a row, from the first on again where there are too few, and blanks behind
    them; or None where a machine has too few of them. No file is cut in two."""
    parts = kept = list(fitting(files, size))
    left = size - sum(map(len, kept))
    if size - left < LEAST:
        return None
    while more := list(fitting(kept, left)):
        parts = parts + more
        left -= sum(map(len, more))
    return b"".join(parts).ljust(size)


def text(kind, size):
    """Returns a text of a kind and of so many bytes, or None where this machine has too few
    files."""
    with warnings.catch_warnings():
        warnings.simplefilter("ignore")
        return filled((it.encode() for it in texts(kind) if it), size)
