"""Tries the package `bully` but for its binding: its stores, watchdogs, members, pages and commands, each by itself.

    tests/members/run package LIBRARY_FOLDER [MODULE ..]

LIBRARY_FOLDER is what `bin/library` wrote. All modules `test_NAME.py` here are run, each in a process of its own, two
at once, since most of them wait; or those named, one after the other. A module in which something failed is run once
more after all others, alone, because a busy machine may starve its processes, and that run counts. Those of logs in
etcd are run only if the program `etcd` is on the path. The last line is 'N passed, M failed'; the exit status is 0 if M
is 0, otherwise 1."""
from __future__ import annotations

import os
import signal
import subprocess
import sys
from concurrent.futures import ThreadPoolExecutor, as_completed
from pathlib import Path

import counting
from counts import Counts


HERE = Path(__file__).parent


def run_each(library: str, counts: Counts) -> None:
    """Runs each module in a process of its own, those of many lines first, as a guess of which take long."""
    names = [path.stem for path in sorted(HERE.glob('test_*.py'), key=lambda path: -path.stat().st_size)]
    starved = []
    with ThreadPoolExecutor(2) as pool:
        runs = {pool.submit(run_apart, library, name): name for name in names}
        for ended in as_completed(runs):
            found = ended.result()
            if found.failed:
                starved.append(runs[ended])
            else:
                counts.join(found)
    for name in starved:
        print(f'-- {name} failed beside other work: once more, alone', flush=True)
        counts.join(run_apart(library, name))


def run_apart(library: str, name: str) -> Counts:
    """Runs a module in a process of its own, prints what it says, and returns its counts."""
    words, counts = [sys.executable, '-m', 'members.package', library, name], Counts()
    run = subprocess.run(words, stdout=subprocess.PIPE, stderr=subprocess.STDOUT, text=True, errors='replace')
    print(f'{run.stdout.rstrip()}\n-- {name}', flush=True)
    counts.add(run.stdout, run.returncode, name)
    return counts


def main(words: list[str]) -> int:
    if not words:
        print(__doc__, file=sys.stderr)
        return 2
    os.environ['BULLY_LIBRARY'] = str(Path(words[0]).resolve())
    signal.signal(signal.SIGHUP, signal.SIG_DFL)  # members must get it, even if nohup started this, which ignores it
    signal.signal(signal.SIGINT, signal.default_int_handler)  # so must commands, even if this runs in the background
    counts = Counts()
    if words[1:]:
        counting.run_folder(HERE, 'members.package', counts, words[1:])
    else:
        run_each(words[0], counts)
    return counts.end()


if __name__ == '__main__':
    counting.leave(main(sys.argv[1:]))
