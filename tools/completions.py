#!/usr/bin/env python3
"""Writes what shells need to complete the arguments of the programs: tools/completions.py FOLDER

It makes FOLDER/logos.bash, FOLDER/_logos for zsh, and for fish FOLDER/NAME.fish for each of the
three programs. The options of logos_cli and logos_show, with their values and descriptions, come
from the table in crates/logos_options; the commands of logos from crates/logos_commands, and their
shapes from crates/logos_code. The last line is `completions: N files`.

A value is a path if the help names it FILE, LIST or PAGE. Otherwise it is one of the values that
the help lists, as `A, B or C` or as `A: ..` at the beginning of its lines, or any text."""
import dataclasses
import itertools
import os
import re
import sys

ROOT = os.path.dirname(os.path.dirname(os.path.realpath(__file__)))
ROW = re.compile(r"OptionRow \{\n(.*?)\n    \},", re.S)
TEXT = re.compile(r'(\w+): (?:Some\(\s*)?"((?:[^"\\]|\\.)*)"')
OF_FILES = ("FILE", "LIST", "PAGE")
PROGRAMS = {"logos_cli": "cli", "logos_show": "show"}
HEAD = "made by tools/completions.py"


@dataclasses.dataclass
class Option:
    """An option of a program: its name without hyphens, its letter, and its value in the help."""

    word: str
    letter: str
    value: str
    about: str
    values: list

    @property
    def is_path(self):
        return self.value in OF_FILES

    @property
    def names(self):
        return [f"-{self.letter}"] * bool(self.letter) + [f"--{self.word}"]


def read(path):
    with open(f"{ROOT}/{path}", encoding="utf-8") as file:
        return file.read()


def option_of(row, program):
    """Returns the option of a row of the table for a program, or `None` if it does not take it."""
    texts = dict(TEXT.findall(row))
    if program not in texts:
        return None
    word = texts["word"].removeprefix("--")
    first, *others = texts[program].rstrip("\n").split("\n")
    value, text = re.fullmatch(rf" *(?:-\w, )?--{word}(?: ([A-Z:]+))?(?: +(.*))?", first).groups()
    if ("has_value: true" in row) != bool(value):
        sys.exit(f"completions: the help of --{word} does not fit its row")
    # From a line before the column of the text on, another form of the value is described.
    column = len(first) - len(text) if text else len(others[0]) - len(others[0].lstrip())
    own = itertools.takewhile(lambda it: len(it) - len(it.lstrip()) == column, others)
    lines = [text] * bool(text) + [it.strip() for it in own]
    values, about = [], " ".join(lines)
    if value and value not in OF_FILES:
        values = [it[1] for it in map(re.compile(r"(\w+): ").match, lines) if it]
        about = "; ".join(lines) if values else about
        choice = re.match(r"((?:\w+, )*\w+) or (\w+)\b", lines[0])
        values = values or (choice and [*choice[1].split(", "), choice[2]]) or []
    return Option(word, texts.get("letter", "").removeprefix("-"), value, about, values)


def options_of(program):
    """Returns the options of `logos_cli` or `logos_show`, in the order of the help."""
    rows = ROW.findall(read("crates/logos_options/src/options.rt"))
    found = [option_of(row, PROGRAMS[program]) for row in rows]
    if not rows or len(rows) != int(re.search(r"OPTIONS: usize = (\d+);", read("crates/logos_options/src/options.rt"))[1]):
        sys.exit("completions: the table of options cannot be read")
    return [it for it in found if it]


def commands():
    """Returns the commands of `logos` with their effects, those with a shape, and its option."""
    text = read("crates/logos_commands/src/command.rt")
    about = dict(re.findall(r"    /// `(\w+)`: (.*?)\.\n", text))
    names = re.search(r"usage: logos ([\w|]+) FILE", read("crates/logos_commands/src/program.rt"))[1].split("|")
    functions = dict(re.findall(r'is_word\(name, "(\w+)"\) \{\n *return (\w+)\(', text))
    if {*names} != {*about} or {*names} != {*functions}:
        sys.exit("completions: the commands of logos cannot be read")
    bodies = dict(re.findall(r"^fn (\w+)\(arguments.*?\n\{(.*?)^\}", text, re.M | re.S))
    shape = next(it for it in options_of("logos_cli") if it.word == "shape")
    known = re.findall(r'if name == "(\w+)"', re.search(r"fn by_name.*?\n    \}\n", read("crates/logos_code/src/code.rt"), re.S)[0])
    values = [it for it in shape.values if it in known]
    lines = [it for it in shape.about.split("; ") if it.split(":")[0] in known]
    if sorted(values) != sorted(known):
        sys.exit("completions: the shapes of logos cannot be read")
    shaped = [name for name in names if "shape_of(" in bodies[functions[name]]]
    return {name: about[name] for name in names}, shaped, dataclasses.replace(shape, values=values, about="; ".join(lines))


def bash():
    """Returns the completions for bash."""
    def cases(options):
        for it in options:
            if it.value:
                does = "_logos_paths" if it.is_path else f"_logos_words '{' '.join(it.values)}'"
                yield f"        {' | '.join(it.names)}) {does} ;;\n"

    names, shaped, shape = commands()
    text = f"""# Completions of logos, logos_cli and logos_show for bash, {HEAD}.

# Sets what is completed, and the word before it. `=` is a word of its own.
_logos_begin() {{
    word=${{COMP_WORDS[COMP_CWORD]}}
    before=${{COMP_WORDS[COMP_CWORD - 1]}}
    if [ "$word" = = ]; then
        word=
    elif [ "$before" = = ]; then
        before=${{COMP_WORDS[COMP_CWORD - 2]}}
    fi
}}

_logos_words() {{
    mapfile -t COMPREPLY < <(compgen -W "$1" -- "$word")
}}

_logos_paths() {{
    compopt -o filenames 2> /dev/null
    mapfile -t COMPREPLY < <(compgen -f -- "$word")
}}

# Completes an option, or a path where no option stands.
_logos_rest() {{
    case $word in
        -*) _logos_words "$1" ;;
        *) _logos_paths ;;
    esac
}}

_logos() {{
    local word before
    _logos_begin
    if [ "$COMP_CWORD" = 1 ]; then
        _logos_words '{' '.join(names)}'
        return
    fi
    case ${{COMP_WORDS[1]}}:$before in
        {' | '.join(f'{name}:--shape' for name in shaped)}) _logos_words '{' '.join(shape.values)}' ;;
        {' | '.join(f'{name}:*' for name in shaped)}) _logos_rest --shape ;;
        *) _logos_paths ;;
    esac
}}
complete -F _logos logos
"""
    for program in PROGRAMS:
        options = options_of(program)
        text += f"""
_{program}() {{
    local word before
    _logos_begin
    case $before in
{''.join(cases(options))}        *) _logos_rest '{' '.join(name for it in options for name in it.names)}' ;;
    esac
}}
complete -F _{program} {program}
"""
    return text


def zsh():
    """Returns the completions for zsh."""
    def quoted(text):
        return text.replace("'", "'\\''")

    def spec(it):
        about = quoted(it.about.replace("[", "\\[").replace("]", "\\]").replace(":", "\\:"))
        value = f":{it.value.replace(':', chr(92) + ':')}:{'_files' if it.is_path else '(' + ' '.join(it.values) + ')' if it.values else ' '}" if it.value else ""
        long = f"--{it.word}{'=' * bool(value)}"
        if it.letter:
            return f"'(-{it.letter} --{it.word})'{{-{it.letter}{'+' * bool(value)},{long}}}'[{about}]{value}'"
        return f"'{long}[{about}]{value}'"

    names, shaped, shape = commands()
    listed = " ".join(f"'{name}:{quoted(about)}'" for name, about in names.items())
    text = f"""#compdef logos logos_cli logos_show
# Completions of logos, logos_cli and logos_show for zsh, {HEAD}.

case $service in
    logos)
        if (( CURRENT == 2 )); then
            local -a commands=({listed})
            _describe command commands
        elif [[ $words[2] = ({'|'.join(shaped)}) ]]; then
            _arguments '--shape[{shape.about.replace(':', chr(92) + ':')}]:{shape.value}:({' '.join(shape.values)})' '*:FILE:_files'
        else
            _files
        fi ;;
"""
    for program in PROGRAMS:
        lines = "".join(f" \\\n            {spec(it)}" for it in options_of(program))
        text += f"    {program})\n        _arguments -S{lines} \\\n            '*:FILE:_files' ;;\n"
    return text + "esac\n"


def fish(program):
    """Returns the completions of a program for fish."""
    def quoted(text):
        return "'" + text.replace("\\", "\\\\").replace("'", "\\'") + "'"

    def line(it, condition=""):
        value = f" -r{'' if it.is_path else 'f'}" * bool(it.value) + (f" -a {quoted(' '.join(it.values))}" if it.values else "")
        return f"complete -c {program}{condition}{f' -s {it.letter}' * bool(it.letter)} -l {it.word}{value} -d {quoted(it.about)}\n"

    text = f"# Completions of {program} for fish, {HEAD}.\n"
    if program in PROGRAMS:
        return text + "".join(map(line, options_of(program)))
    names, shaped, shape = commands()
    for name, about in names.items():
        text += f"complete -c logos -n __fish_use_subcommand -f -a {name} -d {quoted(about)}\n"
    return text + line(shape, f" -n '__fish_seen_subcommand_from {' '.join(shaped)}'")


def main():
    if len(sys.argv) != 2 or sys.argv[1].startswith("-"):
        sys.exit("usage: tools/completions.py FOLDER")
    files = {"logos.bash": bash(), "_logos": zsh(), **{f"{name}.fish": fish(name) for name in ("logos", *PROGRAMS)}}
    os.makedirs(sys.argv[1], exist_ok=True)
    for name, text in files.items():
        with open(os.path.join(sys.argv[1], name), "w", encoding="utf-8") as file:
            file.write(text)
    print(f"completions: {len(files)} files")


if __name__ == "__main__":
    main()
