#!/usr/bin/env python3
"""Compares the errors of sources that do not compile with those that are written in them.

  check.py TABLE FOLDER RUNTIME

Makes a package in the folder whose programs are the sources of the table, lets cargo check it with
the package RUNTIME as `logos`, and compares the errors of each. The last line is
`N passed, M failed`."""
import json
import os
import re
import subprocess
import sys

MARK = re.compile(r"( *// *)(\^+) (.*)|//\.\. (.*)")
MORE = re.compile(r" *//> (.*)")


def sources(table):
    """Returns the sources of a table, by their names."""
    with open(table, encoding="utf-8") as lines:
        parts = re.split(r"^== (.*)\n", lines.read(), flags=re.M)[1:]
    return dict(zip(parts[::2], parts[1::2]))


def wanted(source):
    """Returns the errors that are written in a source: line, first column, column after the last
    one, and text. Of a place over several lines the last column is missing."""
    errors, line = [], 0
    for number, text in enumerate(source.split("\n"), 1):
        mark = MARK.fullmatch(text)
        if MORE.fullmatch(text):
            continue
        if not mark:
            line = number
            continue
        if mark[4]:
            errors.append((line, 1, None, mark[4]))
        else:
            start = len(mark[1]) + 1
            errors.append((line, start, start + len(mark[2]), mark[3]))
    return sorted(errors, key=str)


def further(source):
    """Returns the lines that are written in a source as those after the first one of an error, for
    each error that has some."""
    lists = [[]]
    for text in source.split("\n"):
        more = MORE.fullmatch(text)
        if more:
            lists[-1].append(more[1])
        else:
            lists.append([])
    return [lines for lines in lists if lines]


def write(folder, name, text):
    os.makedirs(os.path.dirname(f"{folder}/{name}"), exist_ok=True)
    with open(f"{folder}/{name}", "w", encoding="utf-8") as out:
        out.write(text)


def lay_out(folder, names, runtime):
    """Writes the package, and returns the source of each program."""
    write(folder, "Cargo.toml", '[package]\nname = "refused"\nedition = "2021"\n\n[workspace]\n\n[lints.rust]\nunused = "allow"\n\n'
                                f'[dependencies]\nlogos = {{ path = "{runtime}" }}\n')
    programs = {}
    for number, (name, source) in enumerate(names.items()):
        programs[f"source{number}"] = name
        write(folder, f"src/bin/source{number}.rs", source + "\nfn main() {}\n")
    return programs


def found(message):
    """Returns an error of the compiler in the form of `wanted`."""
    span = next(span for span in message["spans"] if span["is_primary"])
    last = span["column_end"] if span["line_end"] == span["line_start"] else None
    return span["line_start"], span["column_start"], last, message["message"].split("\n")[0]


def messages(folder, *words, **variables):
    """Runs `cargo check` in a folder, and returns the compiler's messages with the program of
    each."""
    output = subprocess.run(["cargo", "check", "--offline", "--quiet", "--keep-going", "--message-format", "json", *words], cwd=folder,
                            env={**os.environ, **variables}, stdout=subprocess.PIPE, stderr=subprocess.DEVNULL, text=True, check=False).stdout
    lines = [json.loads(line) for line in output.splitlines()]
    return [(line["target"]["name"], line["message"]) for line in lines if line["reason"] == "compiler-message" and line["message"]["spans"]]


def main():
    table, folder, runtime = sys.argv[1:]
    named = sources(table)
    programs = lay_out(folder, named, os.path.realpath(runtime))
    errors = {program: [] for program in programs}
    lines = {program: [] for program in programs}
    for program, message in messages(folder, "--bins"):
        if program in errors and message["level"] == "error":
            errors[program].append(found(message))
            lines[program].append(message["message"].split("\n")[1:])
    failed = 0
    for program, name in programs.items():
        expected, more = wanted(named[name]), further(named[name])
        lacking = [it for it in more if it not in lines[program]]
        if not expected or sorted(errors[program], key=str) != expected or lacking:
            failed += 1
            print(f"{name}:\n  wanted {expected} {lacking}\n  found  {sorted(errors[program], key=str)} {lines[program]}")
    print(f"{len(programs) - failed} passed, {failed} failed")
    sys.exit(failed != 0)


if __name__ == "__main__":
    main()
