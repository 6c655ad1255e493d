#!/usr/bin/env python3
"""Feeds a long standard input to `logos_show FILE -`, and prints how much memory it took and how
fast it was.

  python3 bench/stream.py [LOGOS_SHOW [GB]] [--torn]

Without words it feeds 10 GB to out/programs/logos_show. With `--torn` the middle is a byte that is
not UTF-8: then the number of items before it and the message are compared with what they have to
be, and without it the counts. It fails if they differ, or if more than 64 MiB are in memory."""
import contextlib
import os
import re
import subprocess
import sys
import threading
import time

from common import ROOT, Room, write

RULES = r'''#[derive(Logos)]
#[logos(skip r"[ \n]+")]
enum Token {
    #[regex(r"[0-9]+(\.[0-9]+)*")]
    Number,
    #[regex("[A-Za-zäöüß/_]+")]
    Word,
    #[regex(r#""[^"\n]*""#)]
    Text,
    #[regex(r"\[[^\]\n]*\]")]
    Time,
}
'''
LINE = '127.0.0.{} _ größe [10/Oct/2026:13:55:{:02} +0000] "GET /a/{} HTTP/1.1" 200 {}\n'
LINES = 20_000
BLOCK = "".join(LINE.format(at % 256, at % 60, at, at) for at in range(LINES)).encode()
# What each line has.
ITEMS = {"Number": 3, "Word": 2, "Text": 1, "Time": 1}
MOST = 64 * 1024  # KiB


def feed(out, blocks, torn):
    """Writes the blocks, and in the middle a byte that is not UTF-8, if it is wanted."""
    with contextlib.suppress(BrokenPipeError), out:
        for number in range(blocks):
            out.write(b"\xff" * (torn and number == blocks // 2) + BLOCK)


def ended(running):
    """Returns the number of lines of a program, its last bytes, its message, its status, and the
    most KiB in memory."""
    lines, last = 0, b""
    while some := running.stdout.read(1 << 20):
        lines += some.count(b"\n")
        last = (last + some)[-4096:]
    message = running.stderr.read().decode()
    _, status, used = os.wait4(running.pid, 0)
    return lines, last.decode(errors="replace"), message, os.waitstatus_to_exitcode(status), used.ru_maxrss


def main(program=f"{ROOT}/out/programs/logos_show", gigabytes=10, torn=False):
    blocks = max(2, int(float(gigabytes) * 10**9) // len(BLOCK))
    full = blocks // 2 if torn else blocks
    items, size = full * LINES * sum(ITEMS.values()), full * len(BLOCK)
    room, pipe = Room(), subprocess.PIPE
    write(f"{room.folder}/t.rs", RULES)
    begun = time.monotonic()
    running = subprocess.Popen([program, f"{room.folder}/t.rs", "-"], stdin=pipe, stdout=pipe, stderr=pipe)
    threading.Thread(target=feed, args=(running.stdin, blocks, torn), daemon=True).start()
    lines, last, message, status, memory = ended(running)
    passed = time.monotonic() - begun
    if torn:
        wanted = 1, items, f"error: the input is not UTF-8 at byte {size}\n"
        found = status, lines, message
    else:
        counts = dict(re.findall(r"^ *(\w+): (\d+)$", last.rsplit("\n\n", 1)[1], re.M))
        wanted = 0, *(full * LINES * ITEMS[name] for name in ITEMS), 0, size
        found = status, *(int(counts[name]) for name in (*ITEMS, "errors", "bytes"))
    print(f"{blocks * len(BLOCK)} bytes, {items} items, {memory} KiB in memory, {passed:.1f} s, {size / passed / 1e6:.0f} MB/s")
    if wanted != found or memory > MOST:
        sys.exit(f"wanted {wanted} in at most {MOST} KiB, found {found}")


if __name__ == "__main__":
    main(*(word for word in sys.argv[1:] if word != "--torn"), torn="--torn" in sys.argv)
