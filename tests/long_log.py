#!/usr/bin/env python3
"""Feeds the log of examples/log again and again through a pipe to its program: each count is so
many times that of the log, and the memory stays.

  python3 tests/long_log.py LOG
"""
import os
import re
import subprocess
import sys
import threading

EXAMPLE = os.path.join(os.path.dirname(os.path.dirname(os.path.realpath(__file__))), 'examples', 'log')
TIMES = 120_000
# The log has 54 MB then, and so much may be in memory.
MOST = 32 * 1024  # KiB


def read(name):
    with open(f'{EXAMPLE}/{name}', 'rb') as it:
        return it.read()


def feed(pipe, log):
    """Writes the log so many times, by blocks of a thousand."""
    for _ in range(TIMES // 1000):
        pipe.write(log * 1000)
    pipe.close()


def main(program):
    # Counts stand at the beginning of a line or behind a comma.
    wanted = re.sub(rb'^ *\d+|(?<=, )\d+', lambda it: b'%*d' % (len(it[0]), int(it[0]) * TIMES), read('data/expected'), flags=re.M)
    running = subprocess.Popen([program, f'{EXAMPLE}/log.rs', '/dev/stdin'], stdin=subprocess.PIPE, stdout=subprocess.PIPE, stderr=subprocess.DEVNULL)
    threading.Thread(target=feed, args=(running.stdin, read('data/access.log')), daemon=True).start()
    found = running.stdout.read()
    _, status, used = os.wait4(running.pid, 0)
    if status or found != wanted:
        print(f'status {status}, and in place of\n{wanted.decode()}found\n{found.decode(errors="replace")}')
        return 1
    if used.ru_maxrss > MOST:
        print(f'{used.ru_maxrss} KiB are in memory, where {MOST} may be')
        return 1
    return 0


if __name__ == '__main__':
    sys.exit(main(sys.argv[1]))
