#!/usr/bin/env python3
"""Makes the completions of the three programs by tools/completions.py, and compares them with the
options of their `--help`.

  completions.py LOGOS LOGOS_CLI LOGOS_SHOW

In the file for each shell, each program has the options of its help and no others, and a
description of each but in that for bash. `logos`, which has no help, has the commands of its usage.
The programs take each value that is offered, and no other one. bash completes options, values,
commands and paths as expected; zsh and fish do where they are installed."""
import os
import re
import shutil
import subprocess
import sys

from checks import Checks, read, write

ROOT = os.path.dirname(os.path.dirname(os.path.realpath(__file__)))
NAMES = ("logos", "logos_cli", "logos_show")
ENUM = 'enum E {\n    #[token("a")]\n    A,\n}\n'
SOURCE = f"#[derive(Logos)]\n{ENUM}"
# The values of each option that has a list of them, as its help and docs/GUIDE.md name them.
VALUES = {
    "--color": ["always", "auto", "never"],
    "--message-format": ["human", "json"],
    "--shape": ["state_machine", "tables", "tailcall"],
}
# The options whose value is a path.
PATHS = {"-o", "--output", "--expect", "--html"}
# Lines that are completed at their end, and what bash then offers. The folder has the files
# `t.rs` and `two words`.
LINES = {
    "logos ": ["export", "gen", "lex", "mermaid", "strip"],
    "logos s": ["strip"],
    "logos gen ": ["t.rs", "two words"],
    "logos lex t.rs t": ["t.rs", "two words"],
    "logos lex t.rs t.rs --": ["--shape"],
    "logos gen t.rs --shape ": ["state_machine", "tailcall"],
    "logos gen t.rs --shape ta": ["tailcall"],
    "logos mermaid --": [],
    "logos_cli t": ["t.rs", "two words"],
    "logos_cli --sh": ["--shape"],
    "logos_cli --shape ": VALUES["--shape"],
    "logos_cli --shape =": VALUES["--shape"],
    "logos_cli --shape = ": VALUES["--shape"],
    "logos_cli --color = a": ["always", "auto"],
    "logos_cli t.rs -o tw": ["two words"],
    "logos_cli t.rs --output = tw": ["two words"],
    "logos_cli t.rs --message-format h": ["human"],
    "logos_show t.rs --enum ": [],
    "logos_show t.rs --expect ": ["t.rs", "two words"],
    "logos_show t.rs --html t.": ["t.rs"],
    "logos_show t.rs --ex": ["--examples", "--expect"],
    "logos_show t.rs --color n": ["never"],
}
# Completes the line whose words follow: the last one is that which is completed.
BASH = """
. ../completions/logos.bash
COMP_WORDS=("$@") COMP_CWORD=$(($# - 1))
"_$1" && printf '%s\\n' "${COMPREPLY[@]}"
"""
ZSH = """
fpath=($PWD/completions $fpath)
autoload -Uz compinit
compinit -u -d $PWD/dump
print -l ${_comps[logos]} ${_comps[logos_cli]} ${_comps[logos_show]}
autoload +X _logos
"""


def options_of_help(checks, program):
    """Returns the options of a program's help, and those that have a value."""
    lines = checks.run("--help", program=program).stdout.decode().split("options:\n")[1].split("\n")
    found = [re.match(r"  (?:(-\w), |    )(--[\w-]+)( [A-Z])?", line) for line in lines]
    found = [it for it in found if it]
    return sorted(it for one in found for it in one.groups()[:2] if it), sorted(it[2] for it in found if it[3])


def offered_by_bash(line):
    """Returns what bash offers at the end of a line."""
    ran = subprocess.run(["bash", "-c", BASH, "bash", *line.split(" ")], cwd="files", stdout=subprocess.PIPE, stderr=subprocess.PIPE, check=False)
    if ran.returncode or ran.stderr:
        return [f"status {ran.returncode}", ran.stderr.decode()]
    return sorted(it for it in ran.stdout.decode().split("\n") if it)


def of_zsh(name):
    """Returns the options of a program in the file for zsh, each with its description."""
    part = read("completions/_logos").decode().split(f"    {name})\n")[1].split(" ;;\n")[0]
    found = {}
    for spec in re.findall(r"^ +('.*\[.*')(?: \\)?$", part, re.M):
        names, about = re.fullmatch(r"(.*?)'?\[(.*?[^\\])\].*", spec).groups()
        for it in re.findall(r"--?[\w-]+", names.split(")")[-1]):
            found[it] = about
    return found


def of_fish(name):
    """Returns the options of a program in the file for fish, each with its description."""
    found = {}
    for line in read(f"completions/{name}.fish").decode().split("\n"):
        about = re.search(r"-d '(.*)'$", line)
        for long, it in re.findall(r" -(s|l) ([\w-]+)", line.split(" -d ")[0]):
            found["-" * (2 if long == "l" else 1) + it] = about and about[1]
    return found


def check_options(checks, name, program):
    """Compares the options of a program with those of its help."""
    options, with_value = options_of_help(checks, program)
    checks.check(len(options) > 8, f"the help of {name} has the options {options}")
    found = offered_by_bash(f"{name} -")
    checks.check(found == options, f"bash offers {found}, the help has {options}")
    for shell, found in (("zsh", of_zsh(name)), ("fish", of_fish(name))):
        checks.check(sorted(found) == options, f"{shell} offers {sorted(found)}, the help has {options}")
        checks.check(all(found.values()), f"{shell} describes {found}")
    for option in options:
        word = offered_by_bash(f"{name} {option} ")
        is_path = option in PATHS or option not in with_value
        wanted = ["t.rs", "two words"] if is_path else VALUES.get(option, [])
        checks.check(word == wanted, f"after {option} bash offers {word}, wanted {wanted}")
        check_values(checks, program, option)


def check_values(checks, program, option):
    """Checks that a program takes the values of an option that has some, and no other one."""
    for value in [*VALUES.get(option, ()), "other"] * (option in VALUES):
        ran = checks.run("files/t.rs", option, value, program=program)
        checks.check(ran.returncode == (2 if value == "other" else 0), f"{option} {value} ends with {ran}")


def check_commands(checks, program):
    """Compares the commands of `logos` with those of its usage."""
    usage = checks.run(program=program).stderr.decode()
    names = sorted(re.search(r"usage: logos ([\w|]+) ", usage)[1].split("|"))
    checks.check(offered_by_bash("logos ") == names, f"bash does not offer {names}")
    fish = read("completions/logos.fish").decode()
    checks.check(sorted(re.findall(r" -a (\w+) -d '", fish)) == names, f"fish does not offer {names}")
    zsh = read("completions/_logos").decode().split("    logos)\n")[1].split("_describe")[0]
    checks.check(sorted(re.findall(r"'(\w+):", zsh)) == names, f"zsh does not offer {names}")
    write("enum.rs", ENUM)
    for value in VALUES["--shape"]:
        ran = checks.run("gen", "enum.rs", "--shape", value, program=program)
        is_offered = value in offered_by_bash("logos gen enum.rs --shape ")
        checks.check((ran.returncode == 0) == is_offered, f"logos gen --shape {value} ends with {ran}")
    for name in names:
        takes = checks.run(name, "enum.rs", *["enum.rs"] * (name == "lex"), "--shape", "tailcall", program=program).returncode != 2
        checks.check((offered_by_bash(f"logos {name} enum.rs -") == ["--shape"]) == takes, f"logos {name} and --shape")


def check_shells(checks):
    """Checks that the shells that are installed read their files."""
    ran = subprocess.run(["bash", "-c", ". completions/logos.bash; complete -p logos logos_cli logos_show"], stdout=subprocess.PIPE, check=False)
    wanted = b"complete -F _logos logos\ncomplete -F _logos_cli logos_cli\ncomplete -F _logos_show logos_show\n"
    checks.check(ran.stdout == wanted, f"bash has {ran.stdout}")
    checks.check(subprocess.run(["bash", "-n", "completions/logos.bash"], check=False).returncode == 0, "bash refuses its file")
    if shutil.which("zsh"):
        checks.need(subprocess.run(["zsh", "-n", "completions/_logos"], check=False).returncode == 0, "zsh refuses its file")
        ran = subprocess.run(["zsh", "-f", "-c", ZSH], stdout=subprocess.PIPE, stderr=subprocess.STDOUT, check=False)
        checks.need((ran.returncode, ran.stdout) == (0, b"_logos\n" * 3), f"zsh has {ran}")
    if shutil.which("fish"):
        for line in ("logos ", "logos_cli --", "logos_show --", "logos_cli --shape ta", "logos_show --color a"):
            name = line.split(" ")[0]
            script = f"source ../completions/{name}.fish; complete -C '{line}'"
            ran = subprocess.run(["fish", "--no-config", "-c", script], cwd="files", stdout=subprocess.PIPE, stderr=subprocess.PIPE, check=False)
            found = sorted(it.split("\t")[0] for it in ran.stdout.decode().split("\n") if it)
            checks.need(found == offered_by_bash(line) and not ran.stderr, f"at `{line}` fish has {ran}")


def main(*programs):
    checks = Checks("completions", programs[0])
    made = subprocess.run([sys.executable, f"{ROOT}/tools/completions.py", "completions"], stdout=subprocess.PIPE, check=False)
    checks.need((made.returncode, made.stdout) == (0, b"completions: 5 files\n"), f"the script ends with {made}")
    checks.only("completions", "_logos", "logos.bash", "logos.fish", "logos_cli.fish", "logos_show.fish")
    write("files/t.rs", SOURCE)
    write("files/two words", "")
    for line, wanted in LINES.items():
        checks.case = f"`{line}`"
        found = offered_by_bash(line)
        checks.check(found == wanted, f"bash offers {found}, wanted {wanted}")
    for name, program in zip(NAMES[1:], programs[1:]):
        checks.case = name
        check_options(checks, name, program)
    checks.case = "logos"
    check_commands(checks, programs[0])
    check_shells(checks)
    checks.end("the completions have the options of the programs")


if __name__ == "__main__":
    main(*map(os.path.realpath, sys.argv[1:]))
