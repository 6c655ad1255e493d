"""Checks of a crate in a copy of the checkout."""

import os
import re
import shutil
import subprocess
import sys
from dataclasses import dataclass, field
from pathlib import Path

sys.path.insert(0, str(Path(__file__).resolve().parents[2] / 'tools'))
import crates

PARTS = ('src', 'specs', 'proofs', 'c', 'data')
# the stored run of a program
RUN = ('args', 'stdin', 'stdout', 'status')
FUNCTION = re.compile(r'fn (\S+): (.*)')
PLACE = re.compile(r'(?:note: )?(?:\./)?(src/\S+?):(\d+):\d+: (.*)')
PROOF = re.compile(r'(?:\./)?(proofs/\S+?):\d+:\d+: error: (.*)')


@dataclass
class Outcome:
    """What a check printed: of each function by its path whether it is proved, what was said at
    places in sources, and the errors in proofs."""

    status: int
    output: str
    functions: dict = field(default_factory=dict)
    places: list = field(default_factory=list)
    proofs: list = field(default_factory=list)

    @property
    def has_judged(self):
        return bool(self.functions)

    def errors_in_proof(self, path):
        """The errors in the proof files of a function."""
        return self.errors_below('/'.join(['proofs', *path.split('::')[1:], '']))

    def errors_in_cycles(self, path):
        """The errors in the proof files of the cycles of calls in the module of a function."""
        return self.errors_below('/'.join(['proofs', *path.split('::')[1:-1], '+']))

    def errors_below(self, start):
        return [words for file, words in self.proofs if file.startswith(start) and 'was not admitted' not in words]


def outcome_of(status, output):
    outcome = Outcome(status, output)
    for line in output.split('\n'):
        function, place, proof = (it.match(line) for it in (FUNCTION, PLACE, PROOF))
        if function:
            outcome.functions[function[1]] = function[2]
        if place:
            outcome.places.append((place[1], int(place[2]), place[3]))
        if proof:
            outcome.proofs.append((proof[1], proof[2]))
    return outcome


def crates_below(crate):
    """A crate of the checkout, and all crates below it."""
    return {crate, *crates.in_order(crates.libraries(), crate)}


def said_by(words, folder):
    """How a command ends in a folder, with its output and its messages as one text."""
    how = {'stdin': subprocess.DEVNULL, 'stdout': subprocess.PIPE, 'stderr': subprocess.STDOUT}
    return subprocess.run(words, cwd=folder, text=True, errors='replace', check=False, **how)


def link_or_copy(file, to):
    """Links a file that nobody changes, or copies it where it lies on another disk."""
    try:
        os.link(file, to)
    except OSError:
        shutil.copy2(file, to)


class Repository:
    """A copy of the checkout's texts of some crates and of those below them, without wrong bodies,
    and with the libraries that `rt ci` builds there."""

    def __init__(self, root: Path, tried, room: Path):
        self.root, self.room, self.kit = root, room, crates.kit()
        self.uses = crates.libraries()
        names = set().union(*map(crates_below, tried))
        lines = [f'{it}: {" ".join(uses)}\n' for it, uses in self.uses.items() if it in names]
        (room / 'crates.txt').write_text(''.join(lines), encoding='utf-8')
        if (root / 'HANDLES').is_file():
            shutil.copy2(root / 'HANDLES', room / 'HANDLES')
        for name in names:
            for it in (*PARTS, *RUN):
                file, to = root / 'crates' / name / it, room / 'crates' / name / it
                if file.exists():
                    (shutil.copytree if file.is_dir() else shutil.copy2)(file, to)
        subprocess.run(['git', 'init', '-q', str(room)], check=True)

    def take_libraries(self):
        """Takes the libraries that `rt ci` has built in the checkout, for all crates of the copy
        that have one there."""
        for crate in (self.room / 'crates').iterdir():
            built = self.root / 'crates' / crate.name / 'out' / 'rlib'
            if built.is_dir():
                shutil.copytree(built, crate / 'out' / 'rlib', copy_function=link_or_copy)

    def prove(self, is_proved):
        """Whether all crates are proved as they stand, and what was said. Where they are, as the
        gate's note says, the libraries that it built are taken."""
        if is_proved:
            self.take_libraries()
            return True, ''
        done = said_by(['rt', 'ci'], self.room)
        return done.returncode == 0, done.stdout

    def words(self, crate):
        """The words of a check of a crate as `rt ci` makes it, over the libraries that it built."""
        at, uses = self.kit, self.uses[crate]
        rlib = lambda name: f'{self.room}/crates/{name}/out/rlib/{name}.rlib'
        is_program = (self.root / 'crates' / crate / 'src' / 'main.rt').is_file()
        words = [f'{at}/bin/rattle', 'check', '--crate-name', crate, 'src/main.rt' if is_program else 'src/lib.rt']
        for name in ['std', *(it for it in uses if it not in self.uses and it != 'std')]:
            words += ['--extern', f'{name}={at}/rlibs/{name}.rlib']
        words += ['-L', f'dependency={at}/rlibs']
        for name in (it for it in uses if it in self.uses):
            words += ['--extern', f'{name}={rlib(name)}']
        for name in sorted(crates_below(crate) - {crate}):
            words += ['-L', f'dependency={os.path.dirname(rlib(name))}']
        words += ['--antt-project', f'{at}/rattle/logic/antt-project.json', '--logic-built', f'{at}/logic_built']
        return [*words, '--links', f'{crate}=', '--jobs', '1', '--incremental', 'out/incremental']


class Copy:
    """A crate of such a copy, which is checked with some of its texts changed. Each check begins
    with what the ones before it kept."""

    def __init__(self, repository: Repository, crate):
        self.crate, self.folder = repository.root / 'crates' / crate, repository.room / 'crates' / crate
        self.words = repository.words(crate)

    def check(self, functions):
        """What a check says of these functions and of those that they call, or of the whole crate
        if there are none."""
        only = [word for it in functions for word in ('--only', it.path)]
        done = said_by([*self.words, *only], self.folder)
        return outcome_of(done.returncode, done.stdout)

    def check_with(self, texts, functions):
        """What a check says with these texts of these functions, or of the whole crate if there are
        none, or one of them has another path than the one that is known of it."""
        for path, text in texts.items():
            (self.folder / path).write_text(text, encoding='utf-8')
        try:
            outcome = self.check(functions)
            if outcome.status == 2 and functions and not outcome.has_judged:
                outcome = self.check([])
            return outcome
        finally:
            for path in texts:
                shutil.copy2(self.crate / path, self.folder / path)
