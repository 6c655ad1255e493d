"""Packs proved libraries for other clones of the same text, which take them by
`tools/libraries.sh --from FILE` instead of proving them again.

    python3 tools/pack_libraries.py FILE [CRATE ..]

FILE is a tar archive, compressed by gzip, with the libraries of these crates and of those below
them; without names, of logos_codegen. A library must be that of the crate's text as it stands: `rt`
has noted so beside it, or the gate has proved this checkout."""
import functools
import os
import subprocess
import sys
import tarfile

import crates


def stamps():
    """Returns, for each crate, the note that the toolchain keeps beside the library of its text."""
    sys.path.insert(0, f"{crates.kit()}/bin")
    import rtlib

    os.chdir(crates.ROOT)
    rtlib.Crate.stamp = functools.lru_cache(None)(rtlib.Crate.stamp)
    return {it.name: it.stamp() for it in rtlib.crates_below(crates.ROOT)}


def noted(path):
    """Returns the note at a path, or nothing if there is none."""
    if not os.path.exists(path):
        return ""
    with open(path, encoding="utf-8") as note:
        return note.read()


def note_proved(names, wanted):
    """Writes the notes beside the libraries that the gate has built without them."""
    lacking = [it for it in names if noted(f"{crates.ROOT}/crates/{it}/out/rlib/stamp") != wanted[it]]
    if not lacking:
        return
    kept = subprocess.run(["bash", f"{crates.ROOT}/tests/proofs.sh", "--kept"], stdout=subprocess.DEVNULL, check=False)
    if kept.returncode:
        crates.fail(f"{lacking[0]} has no library of its present text: call tools/libraries.sh, or .ci/run")
    for it in lacking:
        with open(f"{crates.ROOT}/crates/{it}/out/rlib/stamp", "w", encoding="utf-8") as note:
            note.write(wanted[it])


def main(argv):
    if not argv or argv[0].startswith("-"):
        crates.fail("usage: tools/pack_libraries.py FILE [CRATE ..]")
    uses = crates.libraries()
    tops = argv[1:] or ["logos_codegen"]
    unknown = [it for it in tops if it not in uses]
    if unknown:
        crates.fail(f"{unknown[0]} is no crate of crates.txt")
    names = list(dict.fromkeys(it for top in tops for it in [*crates.in_order(uses, top), top]))
    names = [it for it in names if os.path.exists(f"{crates.ROOT}/crates/{it}/src/lib.rt")]
    target = os.path.abspath(argv[0])
    note_proved(names, stamps())
    with tarfile.open(f"{target}.part", "w:gz", compresslevel=6) as packed:
        for it in names:
            packed.add(f"{crates.ROOT}/crates/{it}/out/rlib", f"crates/{it}/out/rlib")
    os.rename(f"{target}.part", target)
    print(f"{len(names)} libraries in {os.path.getsize(target) / 1e6:.0f} MB")


main(sys.argv[1:])
