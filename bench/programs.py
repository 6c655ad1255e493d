"""Builds programs in a copy of the repository, as `rt run` builds them, but that no jump crosses 32
bytes.

So the crates below a program are proved first, where they are not already. The sources of
bench/NAME do not end in .rt, since the gate refuses such files outside the crates, nor do its
proofs in .antt. A variable names a program to measure in the place of each, which can be one that
is not proved: LOGOS, CLI, or the name of its folder in capital letters."""
import glob
import os
import shutil
import subprocess
import sys

from common import BENCH, ROOT, write

sys.path.insert(0, f"{ROOT}/tools")
import crates  # noqa: E402

CLANG = """\
#!/bin/sh
case " $* " in
    *" -c "*) set -- "$@" -mllvm -x86-branches-within-32B-boundaries ;;
esac
exec "{}/toolchain/bin/clang" "$@"
"""


def make_copy(room):
    """Copies the crates, with what is proved of them, if that is not done."""
    if not os.path.exists(f"{room}/crates"):
        shutil.copytree(f"{ROOT}/crates", f"{room}/crates")
        for name in ("crates.txt", "HANDLES"):
            shutil.copy(f"{ROOT}/{name}", room)


def make_kit(room):
    """Makes a toolchain in `kit`, if it is not there: the one that is installed, but that its
    compiler keeps jumps from crossing 32 bytes. Where a jump does, many processors decode the code
    around it anew each time, and which jump does is luck."""
    if os.path.exists(f"{room}/kit"):
        return
    kit, own = crates.kit(), ("rt", "rtlib.py", "clang")
    folders = ("", "/bin", "/toolchain", "/toolchain/bin")
    for folder in folders:
        os.makedirs(f"{room}/kit{folder}")
        for name in os.listdir(kit + folder):
            if f"{folder}/{name}" not in folders and name not in own:
                os.symlink(f"{kit}{folder}/{name}", f"{room}/kit{folder}/{name}")
    for name in ("rt", "rtlib.py"):
        shutil.copy(f"{kit}/bin/{name}", f"{room}/kit/bin")
    write(f"{room}/kit/toolchain/bin/clang", CLANG.format(kit))
    os.chmod(f"{room}/kit/toolchain/bin/clang", 0o755)


def build(room, name, first):
    """Builds the program of a crate of the copy, and runs it once with these arguments. It is
    proved, and then compiled a second time, by the other toolchain. Returns its path."""
    folder = f"{room}/crates/{name}"
    for rt in ("rt", f"{room}/kit/bin/rt"):
        make_kit(room)
        for path in glob.glob(f"{folder}/out/{name}*"):
            os.remove(path)
        done = subprocess.run([rt, "run", "--", *first], cwd=folder, capture_output=True, text=True)
        if done.returncode:
            sys.exit("\n".join((done.stdout + done.stderr).splitlines()[-30:]))
    return f"{folder}/out/{name}"


def logos(room, variable):
    """Returns the path of `logos`, or by the variable CLI of `logos_cli`."""
    if given := os.environ.get(variable):
        return os.path.realpath(given)
    path = f"{room}/{'logos_cli' if variable == 'CLI' else 'logos'}"
    if not os.path.exists(path):
        make_copy(room)
        shutil.copy(build(room, "logos_program", ["gen", f"{BENCH}/lexer/rules/json.rs"]), path)
    return path


def measuring(room, name, libraries, first):
    """Returns the path of the program of bench/NAME over these libraries. What it is run with once
    are the arguments `first`."""
    if given := os.environ.get(name.upper()):
        return os.path.realpath(given)
    make_copy(room)
    crate = f"{name}_bench"
    with open(f"{room}/crates.txt", "a", encoding="utf-8") as out:
        out.write(f"{crate}: {libraries}\n")
    at = f"{room}/crates/{crate}"
    for part in ("specs", "proofs"):
        write(f"{at}/{part}/Lib.antt", "")
    for path in glob.glob(f"{BENCH}/{name}/**/*.in", recursive=True):
        inside = os.path.relpath(path, f"{BENCH}/{name}").removesuffix(".in")
        to = f"{at}/{'src/' if inside.endswith('.rt') else ''}{inside}"
        os.makedirs(os.path.dirname(to), exist_ok=True)
        shutil.copy(path, to)
    return build(room, crate, first)
