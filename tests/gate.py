"""The gate, `rt ci`, and beside it all that is tried, over what it proves and builds."""
import hashlib
import io
import os
import re
import shutil
import subprocess
import sys
import tempfile
from concurrent.futures import ThreadPoolExecutor
from pathlib import Path
from typing import Dict, List

from building.crates import ROOT, Crates, find_kit, read_crates, version_of
from building.kept import drop, keep, made_of
from building.library import ARCHIVE
from building.running import all_jobs, give_way
from counts import Counts
from parts import Part, Run, chosen
from wrong_bodies import edits

RECORD = ROOT / 'out' / 'proved'
HANDED_OUT = ('crates/bully/out/bully', 'crates/bully_c/out/libbully_c.a')
DONE = re.compile(r'^rt: (\w+) (?:NOT PROVED|proved|is kept)')


def run_gate(run: Run, crates: Crates, pool: ThreadPoolExecutor) -> bool:
    """Runs `rt ci`, says which crates it is done with, and adds its counts. Returns whether it was green. A thread
    begins it: a signal, which comes to the main one, comes before that or after it."""
    if 'library' in run.done:
        pool.submit(make_library, run, crates)
    words = ['env', 'PYTHONUNBUFFERED=1', f'RT_JOBS={os.environ.get("RT_JOBS") or all_jobs()}', 'rt', 'ci']
    gate = pool.submit(run.children.begin, words, ROOT, subprocess.PIPE, errors=None).result()
    give_way(gate.pid)  # proofs take what is left, and tests wait for facts, but not for ever
    lines: List[str] = []
    for line in io.TextIOWrapper(gate.stdout or io.BytesIO(), errors='replace'):
        print(line, end='', flush=True)
        lines.append(line)
        run.is_done((DONE.findall(line) or [''])[0])
    said, status = ''.join(lines), gate.wait()
    run.counts.add(said, status, 'rt ci')
    if 'BAD EDIT' in said:
        run.counts.hold(False, 'a must-fail edit fits nothing, and says nothing of a contract')
    run.all_are_done(but='library')
    return status == 0


def make_library(run: Run, crates: Crates) -> None:
    """Makes the library for C, over the crates as the gate left them, once those are done."""
    run.wait_for(crates['bully_c'].all)
    status = run.children.begin(['bin/library', '--gated', str(run.built / 'library')], ROOT, 2, errors=None).wait()
    if status:
        run.counts.hold(False, f'bin/library ended with status {status}')
    run.is_done('library')


def take_gated(crates: Crates, texts: Dict[str, str]) -> None:
    """Takes what a green gate has proved and built as made of what these texts say. It left each library in
    out/rlib."""
    for crate in crates.values():
        if crate.kind == 'library':
            drop(crate.product)
        if crate.library('rlib').exists():
            shutil.copytree(crate.library('rlib'), crate.product, copy_function=os.link)
        for product in (crate.product, *([ARCHIVE] if crate.name == 'bully_c' else [])):
            if product.exists():
                keep(product, texts[crate.name])


def commit_here() -> str:
    """The commit that stands here; nothing if something isn't committed, or if there is no git to tell it."""
    words = ['git', '-C', str(ROOT), 'status', '--porcelain=v2', '--branch', '--untracked-files=all']
    try:
        told = subprocess.run(words, stdout=subprocess.PIPE, stderr=subprocess.DEVNULL, text=True).stdout.splitlines()
    except FileNotFoundError:
        return ''
    return told[0].split()[-1] if told and all(line.startswith('#') for line in told) else ''


def record_of(last: str, commit: str) -> List[str]:
    """What is recorded of a run: its last line, the commit, the kit, and the SHA-256 of what it built that is handed
    out."""
    built = [f'{hashlib.sha256((ROOT / name).read_bytes()).hexdigest()}  {name}' for name in HANDED_OUT]
    return [last, commit, version_of(find_kit()), *built]


def prove(how: str) -> Counts:
    """The gate, and all that is tried beside it. What a green gate built is taken; and if all is green, and was
    committed, it is recorded for bindings/packaging/release; but not if something changed meanwhile."""
    crates, commit = read_crates(), commit_here()
    texts = made_of(crates, crates, find_kit())
    RECORD.unlink(missing_ok=True)
    # (at its end `rt ci` puts back over its own libraries what was there; and no older archive is to be taken for its
    # own)
    drop(ARCHIVE)
    for crate in crates.values():
        shutil.rmtree(crate.library('rlib').parent, ignore_errors=True)
    with tempfile.TemporaryDirectory() as room:
        for crate in (each for each in crates.values() if each.kind == 'program'):
            Path(room, crate.name).symlink_to(crate.product)
        # (of a crate with a folder must-fail `rt ci` tries those, each alone)
        tried = dict.fromkeys(edit.crate for edit in edits('wrong-bodies') if not (edit.folder / 'must-fail').is_dir())
        refused = [
            Part(f'wrong-bodies of {name}', f'tests/edits/try --gated {name}', proved=name, limit=7200)
            for name in tried
        ]
        run = Run([*chosen([], how), *refused], how, Path(room), crates)
        is_green = run.run(lambda pool: run_gate(run, crates, pool))
    counts = run.counts
    try:
        if is_green and texts == made_of(crates, crates, find_kit()):
            take_gated(crates, texts)
            if not counts.failed and commit and commit == commit_here():
                RECORD.parent.mkdir(exist_ok=True)
                RECORD.write_text(''.join(f'{line}\n' for line in record_of(counts.last(), commit)))
    except OSError as error:
        # (no verdict rests on it)
        print(f'prove: what the gate built is not taken: {error}', file=sys.stderr)
    return counts
