"""Reads the tables that stand beside these scripts."""

import tomllib
from os import path
from types import SimpleNamespace


def table(name):
    """The lists of a table by their names."""
    with open(path.join(path.dirname(path.realpath(__file__)), f'{name}.toml'), 'rb') as it:
        return SimpleNamespace(**tomllib.load(it))
