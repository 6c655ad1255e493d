"""Runs a program, and counts the checks of a script that are met. The first one that is not met
ends the script. For the scripts of `files`, and for `limits.py`."""
import os
import resource
import signal
import subprocess
import sys
import tempfile


def write(path, text):
    """Writes a file, and makes its folder."""
    os.makedirs(os.path.dirname(path) or ".", exist_ok=True)
    with open(path, "wb") as out:
        out.write(text if isinstance(text, bytes) else text.encode())


def read(path):
    with open(path, "rb") as it:
        return it.read()


def lines(text):
    """Returns the bytes of some lines, each with its end; or of nothing."""
    return f"{text}\n".encode() if text else b""


class Checks:
    """The checks of a script, and the program that it runs in a folder of its own."""

    def __init__(self, name, program):
        self.name, self.program, self.passed = name, os.path.realpath(program), 0
        # What is checked, for the message of a failure.
        self.case = ""
        self.room = tempfile.TemporaryDirectory()
        self.need(os.access(self.program, os.X_OK), f"the program {self.program} is missing")
        os.chdir(self.room.name)

    def need(self, fits, what):
        """Ends the script if something is not as it has to be."""
        if not fits:
            print(f"{self.name}: {self.case}: {what}", file=sys.stderr)
            print(f"{self.passed} passed, 1 failed")
            sys.exit(1)

    def check(self, fits, what):
        """Counts something that has to be so."""
        self.need(fits, what)
        self.passed += 1

    def run(self, *words, program=None, closed=False, memory=None, seconds=None, size=None, **how):
        """Runs the program. Its standard output can be closed; its memory in KiB, its processor
        seconds and the KiB of a file can be limited."""
        def prepare():
            for limit, most in (
                (resource.RLIMIT_AS, memory and memory << 10),
                (resource.RLIMIT_CPU, seconds),
                (resource.RLIMIT_FSIZE, size and size << 10),
            ):
                if most:
                    resource.setrlimit(limit, (most, most))
            signal.signal(signal.SIGXFSZ, signal.SIG_IGN)
            if closed:
                os.close(1)
        if "input" not in how:
            how.setdefault("stdin", subprocess.DEVNULL)
        given = {"stdout": subprocess.PIPE, "stderr": subprocess.PIPE, "preexec_fn": prepare, **how}
        return subprocess.run([program or self.program, *words], check=False, **given)

    def ends(self, ran, status, err, out=None):
        """Checks the status of a run, the lines of its messages, and those of its output, unless
        that is left open."""
        found = ran.returncode, ran.stderr or b"", b"" if out is None else ran.stdout or b""
        wanted = status, lines(err), b"" if out is None else lines(out)
        self.check(found == wanted, f"{ran.args} ends with {found}, wanted {wanted}")

    def gives(self, status, err, *words, out=None, **how):
        """Runs the program with these words, and checks how it ends."""
        self.ends(self.run(*words, **how), status, err, out)

    def same(self, path, wanted):
        """Checks what a file holds."""
        self.check(read(path) == wanted, f"{path} holds something else")

    def only(self, folder, *names):
        """Checks that a folder has these files alone."""
        self.check(sorted(os.listdir(folder)) == sorted(names), f"{folder} has {os.listdir(folder)}")

    def unheard(self, status, *words):
        """Checks the status of a run whose messages nobody can read."""
        with open("/dev/full", "wb") as full:
            self.gives(status, "", *words, stderr=full)

    def unread(self):
        """Returns a pipe that nobody reads any more."""
        at, pipe = os.pipe()
        os.close(at)
        return pipe

    def end(self, said):
        """Prints the counts, and ends the script."""
        print(f"{self.name}: {said}")
        print(f"{self.passed} passed, 0 failed")
        sys.exit(0)
