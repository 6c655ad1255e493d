#!/usr/bin/env python3
"""Shows that a view that outlives its buffer does not compile.

Each file `*.edit` of this folder is code that keeps a view for too long. Its first line names the
error that it has to meet. A line that ends with `// fault` is of that code alone; a line that ends
with `// sound` stands in its place in the same code without the fault. Both are put, each as a
module, into a crate that uses those of tokens, enums and attributes, and the compiler reads it once
and without a proof, which is as far as the borrow checker. The script fails where a fault is not
met, where the code without a fault or a crate meets any, and where a file of the list is missing or
another one stands."""
import os
import re
import subprocess
import sys
import tempfile

HERE = os.path.dirname(os.path.realpath(__file__))
sys.path.insert(0, f"{HERE}/../../tools")
import crates  # noqa: E402

WANTED = """attribute_past_move attributes_of_enum_returned group_past_move group_returned
piece_past_move piece_returned run_of_temporary run_past_move run_returned text_past_source
tree_past_block trees_past_write""".split()
CRATE, USES = "views", ["logos_token", "logos_enum", "logos_attribute"]


def fail(why):
    print(f"borrows: {why}\n0 passed, 1 failed")
    sys.exit(1)


def lay_out(folder, edits):
    """Makes the crate."""
    os.makedirs(f"{folder}/src")
    text = "//! Views that outlive their buffers.\n\n#![tactic(auto)]\n"
    for name, edit in edits.items():
        for module, kept, dropped in ((name, "fault", "sound"), (f"{name}_sound", "sound", "fault")):
            if not re.search(f"// {kept}$", edit, re.M):
                fail(f"{name} has no line of the {kept}")
            without = re.sub(f".*// {dropped}\n", "", edit)
            with open(f"{folder}/src/{module}.rt", "w", encoding="utf-8") as out:
                out.write(re.sub(f" *// {kept}$", "", without, flags=re.M))
            text += f"mod {module};\n"
    with open(f"{folder}/src/lib.rt", "w", encoding="utf-8") as out:
        out.write(text)


def front_end(folder):
    """Returns what the compiler says of the crate, which it reads with the libraries below it as
    sources, as far as the borrow checker. It is that of `rattle check --only ""`, and takes
    seconds, where `rt check --only ""` first proves the libraries."""
    at, uses = crates.kit(), {**crates.libraries(), CRATE: USES}
    order = crates.in_order(uses, CRATE)
    kits = dict.fromkeys(["core", "std", *(it for name in order for it in uses[name] if it not in uses)])
    words = [f"{at}/bin/rattle", "check", "--crate-name", CRATE, "src/lib.rt"]
    words += [word for name in kits for word in ("--extern", f"{name}={at}/rlibs/{name}.rlib")]
    words += ["-L", f"dependency={at}/rlibs"]
    for name in order:
        below = ",".join(dict.fromkeys(["core", "std", *uses[name]]))
        words += ["--lib", f"{name}:{below}={crates.ROOT}/crates/{name}/src/lib.rt"]
    words += ["--antt-project", f"{at}/rattle/logic/antt-project.json", "--logic-built", f"{at}/logic_built"]
    words += ["--jobs", "1", "--links", f"{CRATE}=", "--only", ""]
    how = {"stdin": subprocess.DEVNULL, "stdout": subprocess.PIPE, "stderr": subprocess.STDOUT}
    return subprocess.run(words, cwd=folder, text=True, check=False, **how).stdout.splitlines()


def main():
    found = sorted(it.removesuffix(".edit") for it in os.listdir(HERE) if it.endswith(".edit"))
    if found != sorted(WANTED):
        fail(f"other files than those of the list: {found}")
    edits = {}
    for name in WANTED:
        with open(f"{HERE}/{name}.edit", encoding="utf-8") as it:
            edits[name] = it.read()
    with tempfile.TemporaryDirectory() as room:
        lay_out(f"{room}/{CRATE}", edits)
        lines = front_end(f"{room}/{CRATE}")
    for name, edit in edits.items():
        error = re.match(r"// ([a-z0-9-]*): ", edit)[1]
        met = [it for it in lines if re.match(rf"src/{name}\.rt:[0-9:]* error\[{error}\]", it)]
        if len(met) != 1:
            fail("\n".join([*lines, f"{name} meets {error} {len(met)} times"]))
        lines = [it for it in lines if it not in met]
        print(f"borrows: {name} meets {error}")
    if any("error" in it for it in lines):
        fail("\n".join([*lines, "another error is met"]))
    print(f"borrows: none of {len(edits)} views that outlive their buffers compiles, and the same code without the fault does")
    print(f"{len(edits)} passed, 0 failed")


if __name__ == "__main__":
    main()
