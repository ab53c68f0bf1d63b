"""Libraries of rules with an edit, each built without its proofs in a copy of this tree."""
from __future__ import annotations

import shutil
import subprocess
import sys
import tempfile
from pathlib import Path

from places import ROOT
from wrong_bodies import read_edit

BUILD = """
import sys, tempfile, time
from pathlib import Path
sys.path.insert(0, 'bin')
from building.crates import find_kit, read_crates
from building.kept import is_made_of, keep, made_of
from building.library import make_library
from building.proving import Building
from building.running import Children
from building.unproved import build_for_tests, product_of

kit, crates = find_kit(), read_crates()
crate, texts, library = crates['bully_c'], made_of(crates, crates['bully_c'].all, kit), Path(sys.argv[1])
if not is_made_of(library, texts['bully_c']):
    with Children() as children, tempfile.TemporaryDirectory() as room:
        build_for_tests(Building(kit, crates, crate, texts, print, children, Path(room), time.monotonic()))
    make_library(library, lambda _: product_of(crate), print)
    keep(library, texts['bully_c'])
"""


def copy_with(edit: Path, tree: Path) -> None:
    """Makes a copy of this tree, as far as the library is made of it, with the edit."""
    crate = edit.parents[1]
    (tree / 'crates').mkdir(parents=True)
    shutil.copytree(ROOT / 'bin', tree / 'bin', ignore=shutil.ignore_patterns('__pycache__'))
    shutil.copytree(crate, tree / 'crates' / crate.name, ignore=shutil.ignore_patterns('out'))
    others = [each for each in (ROOT / 'crates').iterdir() if each.name != crate.name]
    for each in (*others, *(ROOT / name for name in ('bindings', 'include', 'crates.txt'))):
        (tree / each.relative_to(ROOT)).symlink_to(each)
    texts: dict[str, str] = {}
    misfit = read_edit(edit).applied(texts)
    if misfit:
        raise ValueError(f'{edit}: {misfit}')
    for file, text in texts.items():
        (tree / 'crates' / crate.name / file).write_text(text, encoding='utf-8')


def build(edit: Path, folder: Path) -> bool:
    """Builds a library with the edit into the folder, in some two minutes, unless it is there, made of what the sources
    are now. Whether it is there then."""
    with tempfile.TemporaryDirectory() as room:
        copy_with(edit, Path(room, 'tree'))
        return (
            subprocess.run([sys.executable, '-c', BUILD, str(folder)], cwd=Path(room, 'tree'), check=False).returncode
            == 0
        )
