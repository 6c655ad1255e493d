#!/usr/bin/env python3
"""Refuses each request for memory of the programs in turn, and looks at their answers.

  run.py logos COMPILER PROGRAM    runs each command of `logos` on each source of tests/memory/logos
  run.py tools COMPILER CLI SHOW   runs `logos_cli` and `logos_show` on the sources of
                                   tests/memory/tools
  run.py calls COMPILER PROGRAM    has the program of calls answer the rows of tests/rows/calls, but
                                   for those of large.rows

COMPILER is `rattle` or `cargo`.

Each run of a program is made once with ample memory, and once for each of its requests with just
that one refused (refuse.c). Each time it must end as it did, or in want of memory: with status
3, `out of memory` as the last line of its messages, and nothing on standard output. A file is
written as it was, or not at all, and no other file is left. For each run some refusal has to end
so. In a program by `cargo` Rust's library asks for memory of its own, for what `OF_RUST` names, and
ends the program where this is refused. Such a request counts neither as passed nor as failed.

The program of calls refuses by itself (refuse_next.c): each row is answered once with ample memory,
and then once for each request that its answer makes. The answer must be the wanted one, or that
memory ran out; what is lent to a call must then be as it was, and a parser to which it was lent
must answer again that memory ran out. Each call of the program has to have a row for which
something was refused.

It needs gcc. The last line is `N passed, M failed`: a refused request counts as one, and so does a
row of calls."""
import glob
import os
import re
import subprocess
import sys
import tempfile
from collections import Counter
from concurrent.futures import ThreadPoolExecutor

HERE = os.path.dirname(os.path.realpath(__file__))
ROWS = os.path.join(HERE, "..", "rows", "calls")
# The sources of `logos`, each with an input. That of `EXPORTED` says where its chart goes.
SOURCES = ["alike", "bytes", "faults", "letters", "sentence", "subpatterns", "whole"]
EXPORTED = "whole"
# The words of each run of the other programs. The lexers of `whole.rs` have faults, so nothing is
# written for them.
CLI = ["whole.rs", "right.rs --output written", "right.rs --output folder/", "whole.rs --output written", "whole.rs --output faults.rs --check", "whole.rs --output whole.rs", "whole.rs --shape tailcall", "faults.rs", "--help", "--version"]
SHOW = ["whole.rs", "whole.rs input", "whole.rs input --enum Digits", "faults.rs", "faults.rs input", "whole.rs --json", "whole.rs input --json",
        "right.rs --inputs 5", "right.rs --inputs 5 --json", "right.rs --examples --json", "right.rs input --at 1:1 --json", "right.rs whole.rs --compare",
        "right.rs whole.rs --compare --json", "right.rs input --color always", "right.rs input --at 1:7", "texts.rs input --at 3:1", "--version"]


# Where Rust's library asks for memory of its own: when a program begins, for its words, for the
# buffer of standard output, and for paths.
OF_RUST = (b"std::rt::lang_start", b"std::env::args_os", b"std::io::stdio::stdout", b"std::sys::fs::", b"<std::fs::DirBuilder>::")


class Wrong(Exception):
    """An answer that is none of the two."""


def compiled(room, name):
    """Returns the path of an object that is loaded before a program."""
    subprocess.run(["gcc", "-O1", "-shared", "-fPIC", "-o", f"{room}/{name}.so", f"{HERE}/{name}.c"], check=True)
    return f"{room}/{name}.so"


def read(path):
    with open(path, "rb") as it:
        return it.read()


def files_of(folder):
    """Returns what the files in a folder hold. Most folders are empty."""
    if not os.listdir(folder):
        return {}
    return {os.path.relpath(path, folder): read(path) for path in glob.glob(f"{folder}/**", recursive=True) if os.path.isfile(path)}


def answer(folder, number):
    """Returns how a run ended: its status, its outputs, and the files that it left. The time
    differs from run to run."""
    files = files_of(f"{folder}/{number}")
    out = re.sub(rb"^milliseconds: .*\n", b"", read(f"{folder}/{number}.out"), flags=re.M)
    return int(read(f"{folder}/{number}.status")), out, read(f"{folder}/{number}.err"), files


def is_want(status, out, err, files):
    """Whether an answer is want of memory."""
    return status == 3 and not out and not files and re.search(rb"^(error: )?out of memory\n\Z", err, re.M) is not None


def is_of_rust(status, out, err, files, ample):
    """Whether Rust's library has ended a program for a request of its own: what asked for memory
    stands in the trace in front of all functions of ours. A file may be there whole, or not."""
    frames = re.findall(rb"^ +\d+: (.+)$", err, re.M)
    ours = next((at for at, it in enumerate(frames) if b"logos_" in it or b"rattle_std" in it), len(frames))
    whole = all(files[name] == ample[name] for name in files if name in ample)
    return status == 134 and not out and whole and any(it in frame for frame in frames[:ours] for it in OF_RUST)


def refuse_each(refuse, program, words):
    """Runs a program with each of its requests refused. Returns how many there were of the program
    itself, how many ended in want of memory, and the ample answer."""
    with tempfile.TemporaryDirectory(prefix="refused-", dir=place()) as room:
        given = {**os.environ, "LD_PRELOAD": refuse, "REFUSE": room, "RUST_BACKTRACE": "1"}
        subprocess.run([program, *words], env=given, stdin=subprocess.DEVNULL, check=True)
        ample = answer(room, 0)
        requests = len(glob.glob(f"{room}/*.status")) - 1
        lacked = of_rust = 0
        for number in range(1, requests + 1):
            found = answer(room, number)
            if is_want(*found):
                lacked += 1
            elif IS_ERASED and is_of_rust(*found, ample[3]):
                of_rust += 1
            elif found != ample:
                raise Wrong(f"request {number} of {' '.join(words)} is answered by {found}")
    if not lacked:
        raise Wrong(f"no refusal of {' '.join(words)} ends in out of memory")
    return requests - of_rust, lacked, ample


def place():
    """Returns a folder in memory for what the runs write, if there is one."""
    return "/dev/shm" if os.access("/dev/shm", os.W_OK) else None


def of_logos(program):
    """Yields the words of each run of `logos`, and whether it writes a file."""
    found = sorted(os.path.basename(path).removesuffix(".rs") for path in glob.glob(f"{HERE}/logos/*.rs"))
    if found != SOURCES:
        raise Wrong(f"the sources are {' '.join(found)}, where {' '.join(SOURCES)} are stated")
    for name in SOURCES:
        source = f"{HERE}/logos/{name}.rs"
        yield program, ["lex", source, source.removesuffix(".rs") + ".txt"], False
        yield program, ["gen", source, "--shape", "tailcall"], False
        yield program, ["strip", source], False
        yield program, ["export" if name == EXPORTED else "mermaid", source], name == EXPORTED


def of_tools(cli, show):
    """Yields the words of each run of the other programs, and whether it writes a file."""
    for program, runs in (cli, CLI), (show, SHOW):
        for run in runs:
            words = [f"{HERE}/tools/{it}" if os.path.exists(f"{HERE}/tools/{it}") else it for it in run.split()]
            yield program, words, run.startswith("right.rs --output")


def try_run(refuse, program, words, writes):
    """Tries a run. Returns its counts, and what is wrong."""
    try:
        count, lacked, (_, _, _, files) = refuse_each(refuse, program, words)
        if writes != bool(files):
            raise Wrong(f"{' '.join(words)} leaves the files {sorted(files)}")
        return count, lacked, None
    except (Wrong, OSError, subprocess.CalledProcessError) as error:
        return 0, 0, str(error)


def of_runs(refuse, runs):
    """Tries all runs, several at once. Returns how many requests were refused, and how many runs
    failed."""
    with ThreadPoolExecutor(len(os.sched_getaffinity(0))) as pool:
        results = list(pool.map(lambda run: try_run(refuse, *run), runs))
    refused, lacked = sum(it[0] for it in results), sum(it[1] for it in results)
    wrong = [it[2] for it in results if it[2]]
    for line in wrong:
        print(f"memory: {line}")
    print(f"memory: of {refused} refused requests {lacked} end in out of memory, and {refused - lacked} change nothing")
    return refused, len(wrong)


def calls():
    """Returns the names in the table of the program of calls."""
    with open(f"{HERE}/../calls/src/answering.rt.in", encoding="utf-8") as it:
        return re.findall(r'"([^"]+)"', re.search(r"^const CALLS.*?^\];", it.read(), re.M | re.S)[0])


def answered(refuse, program, path):
    """Returns the lines that the program of calls prints for a file of rows."""
    with open(path, "rb") as rows:
        done = subprocess.run([program, "refuse"], env={**os.environ, "LD_PRELOAD": refuse}, stdin=rows, stdout=subprocess.PIPE, check=False)
    return [*done.stdout.decode().splitlines(), *[f"{path}: status {done.returncode}"] * (done.returncode != 0)]


def of_calls(refuse, program):
    """Has all rows of calls answered. Returns how many passed, and how many failures there are."""
    paths = sorted((it for it in glob.glob(f"{ROWS}/*.rows") if not it.endswith("/large.rows")), key=os.path.getsize, reverse=True)
    met, passed, wrong = Counter(), 0, []
    with ThreadPoolExecutor(len(os.sched_getaffinity(0))) as pool:
        for line in (line for lines in pool.map(lambda path: answered(refuse, program, path), paths) for line in lines):
            refused, counts = re.fullmatch(r"refused: ([^ ]+).*: (\d+)", line), re.fullmatch(r"(\d+) passed, (\d+) failed", line)
            if refused:
                met[refused[1].removesuffix(":")] += int(refused[2])
            elif counts:
                passed += int(counts[1])
            else:
                wrong.append(line)
    wrong += [f"nothing was refused of {name}" for name in calls() if not met[name]]
    for line in wrong:
        print(f"memory: {line}")
    print(f"memory: {sum(met.values())} requests of {len(calls())} calls were refused, each with the wanted answer or that memory ran out")
    return passed, len(wrong)


def main():
    programs = [os.path.realpath(it) for it in sys.argv[3:]]
    with tempfile.TemporaryDirectory(prefix="memory-") as room:
        try:
            if sys.argv[1] == "calls":
                passed, failed = of_calls(compiled(room, "refuse_next"), *programs)
            else:
                passed, failed = of_runs(compiled(room, "refuse"), list((of_logos if sys.argv[1] == "logos" else of_tools)(*programs)))
        except (Wrong, OSError, subprocess.CalledProcessError) as error:
            print(f"memory: {error}")
            passed, failed = 0, 1
    print(f"{passed} passed, {failed} failed")
    return 1 if failed or not passed else 0


if __name__ == "__main__":
    if len(sys.argv) < 4 or sys.argv[1] not in ("logos", "tools", "calls") or sys.argv[2] not in ("rattle", "cargo"):
        sys.exit(__doc__)
    IS_ERASED = sys.argv[2] == "cargo"
    sys.exit(main())
