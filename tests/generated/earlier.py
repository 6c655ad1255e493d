"""What an earlier quick test has found for a seed, kept in the folder that KEPT_BUILDS names, while
the scripts and Python stay what they are."""

import hashlib
import os
import pickle
import sys
from functools import cache
from glob import glob
from os import path

HERE = path.dirname(path.realpath(__file__))
FOLDER = os.environ.get('KEPT_BUILDS')


@cache
def sum_of(kind):
    """The sum of all scripts and tables that decide what is found."""
    made = hashlib.sha256(sys.version.encode())
    for name in sorted([*glob(f'{HERE}/*.py'), *glob(f'{HERE}/*.toml'), *glob(f'{path.dirname(HERE)}/{kind}/*.py')]):
        with open(name, 'rb') as script:
            made.update(script.read())
    return made.digest()


def earlier(kind, seed):
    """What was kept, or None."""
    if not FOLDER or not path.exists(f'{FOLDER}/{kind}/{seed}'):
        return None
    with open(f'{FOLDER}/{kind}/{seed}', 'rb') as kept:
        made_from, found = pickle.load(kept)
    return found if made_from == sum_of(kind) else None


def keep(kind, seed, found):
    """Keeps something for a later test."""
    if FOLDER:
        os.makedirs(f'{FOLDER}/{kind}', exist_ok=True)
        with open(f'{FOLDER}/{kind}/{seed}.part', 'wb') as kept:
            pickle.dump((sum_of(kind), found), kept)
        os.replace(f'{FOLDER}/{kind}/{seed}.part', f'{FOLDER}/{kind}/{seed}')
