#!/usr/bin/env python3
"""Builds and runs the programs of docs/handbook, and looks at its code.

The standard output of each program of examples/handbook has to be its file in `expected`. Each
block of code of a page has to be text of the file that the line above it links to. Each page has to
have its link in the index. The last line is `N passed, M failed`, with one for each program, block
and page, and one for the build."""
import os
import re
import subprocess
import sys
import tempfile
from pathlib import Path

ROOT = Path(__file__).resolve().parents[1]
EXAMPLES, PAGES = ROOT / "examples/handbook", ROOT / "docs/handbook"
# A block with the line above it.
BLOCK = re.compile(r"^(.*)\n```.*\n((?s:.*?))^```$", re.M)


def programs(target):
    """Builds the programs, and yields whether each prints the expected lines, or the fault."""
    words = ["cargo", "build", "--quiet", "--offline", "--manifest-path", f"{EXAMPLES}/Cargo.toml"]
    given = {**os.environ, "CARGO_TARGET_DIR": target, "CARGO_PROFILE_DEV_DEBUG": "0", "CARGO_INCREMENTAL": "0"}
    yield subprocess.run(words, env=given, check=False).returncode == 0, "the programs do not build"
    for name in sorted(it.stem for it in EXAMPLES.glob("*/src/bin/*.rs")):
        program = f"{target}/debug/{name}"
        how = {"stdout": subprocess.PIPE, "stderr": subprocess.STDOUT}
        found = subprocess.run([program], check=False, **how).stdout if os.path.exists(program) else None
        wanted = EXAMPLES / "expected" / name
        yield wanted.exists() and found == wanted.read_bytes(), f"{name} prints {found}"


def pages():
    """Yields the same for each page and each of its blocks."""
    index = (PAGES / "README.md").read_text(encoding="utf-8")
    for page in sorted(PAGES.glob("*.md")):
        yield page.name == "README.md" or f"]({page.name})" in index, f"the index has no link to {page.name}"
        for above, block in BLOCK.findall(page.read_text(encoding="utf-8")):
            link = re.search(r"\]\(([^)]*)\):$", above)
            file = link and PAGES / link[1]
            text = file.read_text(encoding="utf-8") if file and file.exists() else ""
            yield block and f"\n{block}" in f"\n{text}", f"{page.name}: a block is not text of the file that the line above it links to: {above}"


def main():
    with tempfile.TemporaryDirectory() as room:
        target = os.environ.get("CARGO_TARGET_DIR", os.environ.get("KEPT_BUILDS", room) + "/handbook")
        results = [*programs(target), *pages()]
    wrong = [what for fits, what in results if not fits]
    for what in wrong:
        print(f"handbook: {what}")
    print(f"{len(results) - len(wrong)} passed, {len(wrong)} failed")
    return 1 if wrong else 0


if __name__ == "__main__":
    sys.exit(main())
