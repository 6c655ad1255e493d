#!/usr/bin/env python3
"""Runs the parts of tests/parts, and counts what passed.

  run_parts.py gate [--anew]              all of them, with the proved programs and the erased ones
  run_parts.py quick [--long] [--rattle] [PART..]
                                          those that are named, or all but the long ones and those
                                          of the gate, with the erased programs; with --long also
                                          the long ones, with --rattle also with the programs that
                                          Rattle builds without proofs. `lints` names all lints.
                                          If the named parts run only the three programs, Cargo
                                          builds no others

A part whose command names programs runs once with those of Rattle, under its name, and once with
those of Cargo, as `NAME.erased`. Parts run side by side, as many as there are cores, except for the
two runs of one part, since the second takes what the first has compiled of the same text. Each
part runs, whatever failed before it. At the end stand the time and the counts of each part, then a
line for each part that was left out because a tool is missing, and last a line `N passed, M failed`
with the sums. A part in which fewer passed than the list states has failed, and so has one that
prints no counts. The status is 1 if anything failed."""
import argparse
import dataclasses
import os
import re
import shutil
import subprocess
import sys
import tempfile
import threading
import time

ROOT = os.path.dirname(os.path.dirname(os.path.realpath(__file__)))
LIST = f"{ROOT}/tests/parts"
PROVED, RATTLE, CARGO = f"{ROOT}/out/programs", f"{ROOT}/out/rattle", f"{ROOT}/out/cargo/release"
# What commands name: programs, the folder of the examples in Rattle, and that of the three
# programs.
TOOLS = {"logos": "logos", "logos_cli": "logos_cli", "logos_show": "logos_show", "built": "."}
FOR_TESTS = {"calls": "calls", "evidence": "evidence", "edits": "edits"}
# The part that makes the programs of each compiler, and the tool that it needs.
MAKERS = {"rattle": "programs", "cargo": "erased"}
NEEDED = {"rattle": "rt", "cargo": "cargo"}
# What the quick test leaves out: the proofs, and what needs the libraries that they leave.
OF_PROOFS = ("proofs", "wrong_bodies")
# What was compiled and found stays here: in the quick test from run to run.
KEPT = {"quick": f"{ROOT}/out/compiled", "gate": f"{ROOT}/out/gate"}
PRINTING = threading.Lock()


def fail(why):
    print(f"run_parts: {why}", file=sys.stderr)
    sys.exit(2)


@dataclasses.dataclass
class Part:
    """A run of a row of the list: with the programs of one compiler, or with none."""

    row: str
    least: int
    tool: str
    runs: str
    by: str
    command: str
    # What its command names.
    programs: set

    @property
    def alone(self):
        return self.runs == "alone"

    @property
    def name(self):
        return self.row + ".erased" * (self.by == "cargo" and self.row not in MAKERS.values())

    def missing(self):
        """Returns the tool that it needs and that is not there, if any."""
        tools = [*self.tool.split(","), NEEDED.get(self.by, "-")]
        return next((it for it in tools if it != "-" and not (shutil.which(it) or os.path.isdir(it))), None)


@dataclasses.dataclass
class Result:
    """How a part ended: its seconds of wall and of processor time, and its counts."""

    name: str
    wall: float
    processor: float
    passed: int
    failed: int


def listed():
    """Returns the parts of the list."""
    found = []
    with open(LIST, encoding="utf-8") as lines:
        for line in lines:
            if line.startswith("#") or not line.strip():
                continue
            name, least, tool, runs, by, command = line.rstrip("\n").split(maxsplit=5)
            programs = set(re.findall(r"\{(\w+)\}", command))
            known = {*TOOLS, *FOR_TESTS, "examples", "compiler"}
            leasts = [int(it) for it in least.split(",")]
            if runs not in ("alone", "beside", "long", "gate") or by not in ("both", "-", *MAKERS) or not programs <= known or min(leasts) < 1:
                fail(f"the list has a row that cannot be read: {line}")
            for one in MAKERS if by == "both" else [by]:
                found.append(Part(name, leasts[-1 if one == "cargo" else 0], tool, runs, one, command.replace("{compiler}", one), programs - {"compiler"}))
    return found


def paths_of(by, is_gate):
    """Returns where the programs of a compiler are."""
    if by == "cargo":
        return {name: f"{CARGO}/{path}" for name, path in {**TOOLS, **FOR_TESTS, "examples": "."}.items()}
    return {**{name: f"{RATTLE}/{path}" for name, path in {**TOOLS, **FOR_TESTS, "examples": "examples"}.items()},
            **{name: f"{PROVED}/{path}" for name, path in TOOLS.items() if is_gate}}


def words(part, is_gate):
    """Returns the words of a part's command."""
    paths = paths_of(part.by, is_gate)
    return ["bash", "-c", re.sub(r"\{(\w+)\}", lambda it: paths[it[1]], part.command)]


def counts(part, output, status):
    """Returns how many passed and failed by the last line of the output, and what is wrong
    besides."""
    lines = output.rstrip("\n").rsplit("\n", 1)
    found = re.search(r"(\d+) passed, (\d+) failed", lines[-1])
    if not found:
        return 0, 1, "it prints no counts"
    passed, failed = int(found[1]), int(found[2])
    if failed:
        return passed, failed, ""
    if status:
        return passed, 1, f"its status is {status}"
    if passed < part.least:
        return passed, 1, f"{passed} passed, where at least {part.least} are stated"
    return passed, failed, ""


def run(part, is_gate):
    """Runs a part, prints its output, and returns how it ended."""
    with tempfile.TemporaryFile() as out:
        begun = time.monotonic()
        if part.alone:
            print(f"== {part.name}", flush=True)
        process = subprocess.Popen(words(part, is_gate), cwd=ROOT, stdin=subprocess.DEVNULL, stdout=subprocess.PIPE, stderr=subprocess.STDOUT)
        for line in process.stdout:
            out.write(line)
            if part.alone:
                sys.stdout.buffer.write(line)
                sys.stdout.flush()
        _, status, used = os.wait4(process.pid, 0)
        process.returncode = os.waitstatus_to_exitcode(status)
        wall = time.monotonic() - begun
        out.seek(0)
        output = out.read().decode(errors="replace")
    passed, failed, wrong = counts(part, output, process.returncode)
    with PRINTING:
        if not part.alone:
            print(f"== {part.name}\n{output}", end="" if output.endswith("\n") else "\n")
        if wrong:
            print(f"{part.name} has failed: {wrong}")
        sys.stdout.flush()
    return Result(part.name, wall, used.ru_utime + used.ru_stime, passed, failed)


class Line:
    """The parts that wait, and those that ended."""

    def __init__(self, parts, is_gate):
        self.waiting, self.is_gate, self.results = list(parts), is_gate, []
        self.change = threading.Condition()
        self.running, self.is_alone = [], False

    def next(self):
        """Returns the next part that may begin, or None if there is none any more."""
        with self.change:
            while self.waiting:
                part = None if self.is_alone else self.first_ready()
                if part:
                    self.waiting.remove(part)
                    self.running.append(part)
                    self.is_alone = part.alone
                    return part
                self.change.wait()
            return None

    def first_ready(self):
        """Returns the first part that may begin. After a part that runs alone none begins before it
        has ended."""
        for part in self.waiting:
            if part.alone:
                return None if self.running else part
            if self.is_ready(part):
                return part
        return None

    def is_ready(self, part):
        """Whether the programs of a part are there, and its row does not run."""
        is_proved = self.is_gate and part.by == "rattle" and part.programs <= set(TOOLS)
        maker = None if is_proved or part.row in MAKERS.values() else MAKERS.get(part.by)
        return all(it.row not in (maker, part.row) for it in self.running) and all(it.row != maker for it in self.waiting)

    def end(self, part, result):
        with self.change:
            self.running.remove(part)
            self.is_alone = False
            self.results.append(result)
            self.change.notify_all()

    def work(self):
        """Runs parts until none waits."""
        while part := self.next():
            self.end(part, run(part, self.is_gate))


def table(results):
    """Prints the time and the counts of each part."""
    print(f"\n{'part':24} {'wall s':>8} {'cpu s':>8} {'passed':>8} {'failed':>7}")
    for it in results:
        print(f"{it.name:24} {it.wall:8.1f} {it.processor:8.1f} {it.passed:8} {it.failed:7}")


def chosen(given):
    """Returns the parts that are asked for, and lines for those that are left out."""
    is_gate = given.how == "gate"
    all_parts = [it for it in listed() if is_gate or it.row not in OF_PROOFS]
    if "lints" in given.parts:
        lints = [it.row for it in all_parts if "tests/lints/" in it.command and not it.programs]
        given.parts = [*(it for it in given.parts if it != "lints"), *lints]
    unknown = set(given.parts) - {it.row for it in all_parts}
    if unknown:
        fail(f"no part is named {sorted(unknown)[0]}: there are {', '.join(dict.fromkeys(it.row for it in all_parts))}")
    left = () if is_gate else ("gate",) if given.long else ("gate", "long")
    wanted = lambda it: it.row in given.parts or not given.parts and it.runs not in left
    parts = [it for it in all_parts if wanted(it) and (is_gate or given.rattle or it.by != "rattle")]
    makers = {MAKERS[it.by] for it in parts if it.by in MAKERS}
    parts = [it for it in all_parts if it in parts or it.row in makers]
    if given.parts and "erased" not in given.parts and all(it.programs <= set(TOOLS) for it in parts if it.by == "cargo"):
        for part in parts:
            part.command += " build --release -p logos-cli" * (part.row == "erased")
    lines = [f"left out: {it.name}, because {it.missing()} is missing" for it in parts if it.missing()]
    if "long" in left and not given.parts:
        long = dict.fromkeys(it.row for it in all_parts if it.runs == "long")
        lines.append(f"left out: {', '.join(long)}: bash tests/quick.sh --long runs them too")
    if not is_gate and not given.rattle:
        lines.append("left out: the programs that Rattle builds: bash tests/quick.sh --rattle runs them too")
    return [it for it in parts if not it.missing()], lines


def main():
    parser = argparse.ArgumentParser(prog="run_parts.py", allow_abbrev=False)
    parser.add_argument("how", choices=["gate", "quick"])
    parser.add_argument("--anew", action="store_true", help="prove everything, whatever an earlier run has proved")
    parser.add_argument("--long", action="store_true", help="run the long parts, too")
    parser.add_argument("--rattle", action="store_true", help="run the programs that Rattle builds, too")
    parser.add_argument("parts", nargs="*", metavar="PART")
    given = parser.parse_intermixed_args()
    parts, left_out = chosen(given)
    for part in parts:
        part.command += " --anew" * (given.anew and part.row in OF_PROOFS)
    begun = time.monotonic()
    for folder in (KEPT["gate"], os.path.dirname(CARGO)) if given.how == "gate" else ():
        shutil.rmtree(folder, ignore_errors=True)
    os.environ.update(PYTHONDONTWRITEBYTECODE="1", KEPT_BUILDS=KEPT[given.how])
    line = Line(parts, given.how == "gate")
    jobs = [threading.Thread(target=line.work) for _ in range(len(os.sched_getaffinity(0)))]
    for job in jobs:
        job.start()
    for job in jobs:
        job.join()
    table(line.results)
    wall, processor = time.monotonic() - begun, sum(it.processor for it in line.results)
    print(f"{wall / 60:.1f} minutes of wall time, {processor / 60:.1f} minutes of processor time")
    print("".join(f"{it}\n" for it in left_out), end="")
    passed, failed = sum(it.passed for it in line.results), sum(it.failed for it in line.results)
    print(f"{passed} passed, {failed} failed")
    return 1 if failed or not passed else 0


if __name__ == "__main__":
    sys.exit(main())
