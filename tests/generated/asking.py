"""Runs programs on some files, and compares what many of them answer."""

import os
import subprocess
import tempfile
from concurrent.futures import ThreadPoolExecutor


def asked(program, words, files, given=None):
    """The status, the output and the complaints of a program in a folder with these files. The
    folder is in memory, if there is such a one."""
    with tempfile.TemporaryDirectory(dir='/dev/shm' if os.access('/dev/shm', os.W_OK) else None) as room:
        for name, content in files.items():
            with open(f'{room}/{name}', 'wb') as file:
                file.write(content)
        done = subprocess.run([program, *words], cwd=room, input=given, capture_output=True, check=False)
    return done.returncode, done.stdout, done.stderr


def compare_all(name, judge, jobs):
    """Judges jobs side by side, each with a number of comparisons and those that fail. Prints these
    and the counts, and gives the status."""
    wrong, compared = [], 0
    with ThreadPoolExecutor(len(os.sched_getaffinity(0))) as workers:
        for count, found in workers.map(judge, jobs):
            compared += count
            wrong += found
    for line in wrong:
        print(f'{name}: {line}')
    print(f'{compared - len(wrong)} passed, {len(wrong)} failed')
    return 1 if wrong else 0
