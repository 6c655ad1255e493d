"""Compiles scanners in Rust and in C, so that no jump crosses 32 bytes: where one does is luck,
which is a tenth and more of the speed on many processors."""
import glob
import os
import re
import resource
import shutil
import subprocess
import sys

from common import ROOT, read, said_by, write

INSIDE = ["-C", "opt-level=3", "-C", "llvm-args=-x86-branches-within-32B-boundaries"]


def runtime(out, source=f"{ROOT}/rust/logos/src"):
    """Compiles the runtime in a folder. It is told what its build script tells it."""
    words = ["rustc", "--edition", "2021", *INSIDE, "--crate-type", "rlib", "--crate-name", "logos"]
    words += ["--cfg", 'feature="std"', "-o", out, f"{source}/lib.rs"]
    subprocess.run(words, env={**os.environ, "LOGOS_VECTORS": "1"}, check=True)
    return out


def lay_out(folder, cli, rules, shape):
    """Writes the parts of a program over the text of a shape: the enum of a file of rules without
    its attributes, and the implementation."""
    source, text = read(rules), said_by([cli, rules, "--shape", shape])
    name = re.search(r"^enum (\w+) \{$", source, re.M)[1]
    enum = re.sub(r"^ *#\[.*\n", "", source, flags=re.M)
    write(f"{folder}/rules.rs", f"{enum}type Rules = {name};\n")
    write(f"{folder}/lexer.rs", text[re.search("^impl < ", text, re.M).start():])


def in_rust(room, name, parts, main, library, seconds, words=()):
    """Compiles the program `main` over the parts of a folder. Returns its path, or None where rustc
    refuses it or takes more processor seconds than these."""
    path = room.path(name, *parts, main, library, *words)
    if not os.path.exists(path) and not os.path.exists(f"{path}.said"):
        copy = shutil.copy(main, os.path.dirname(parts[0]))
        given = ["rustc", "--edition", "2021", *INSIDE, "--crate-name", "lexer", *words]
        given += ["--extern", f"logos={library}", "-o", f"{path}.part", copy]
        limit = lambda: resource.setrlimit(resource.RLIMIT_CPU, (seconds, seconds))
        done = subprocess.run(given, preexec_fn=limit, capture_output=True, text=True)
        if done.returncode == 0:
            os.rename(f"{path}.part", path)
        else:
            error = re.search("^error.*", done.stderr, re.M)
            write(f"{path}.said", error[0] if error else f"more than {seconds} processor seconds")
    if os.path.exists(path):
        return path
    print(f"{name}: left out: {read(f'{path}.said')}", file=sys.stderr)
    return None


def in_c(room, name, words, source, headers):
    """Compiles what a generator makes of a source, called by these words. Returns the path of the
    program."""
    made = f"{room.folder}/{name}.c"
    subprocess.run([*words, "-o", made, source], check=True)
    path = room.path(name, made, *sorted(glob.glob(f"{headers}/*.h")))
    if not os.path.exists(path):
        gcc = ["gcc", "-O2", "-w", "-Wa,-mbranches-within-32B-boundaries", "-I", headers]
        subprocess.run([*gcc, "-o", path, made], check=True)
    return path
