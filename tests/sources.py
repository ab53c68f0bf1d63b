"""The Python of the project: its modules, and its programs, whose names have no `.py`."""
from __future__ import annotations

from collections.abc import Iterator
from pathlib import Path

from places import ROOT

FIRST_LINE = b'#!/usr/bin/env python3\n'  # of a program


def is_program(path: Path) -> bool:
    if path.suffix or path.is_symlink() or not path.is_file():
        return False
    with path.open('rb') as file:
        return file.readline() == FIRST_LINE


def python_files(*folders: str) -> Iterator[Path]:
    """The modules and programs in these folders, in the order of their names."""
    for path in (each for folder in folders for each in sorted((ROOT / folder).rglob('*'))):
        if path.suffix == '.py' or is_program(path):
            yield path
