"""Tries rebalances, and how members behave where nothing goes wrong.

    tests/members/run rules LIBRARY_FOLDER [--rebalance COUNT] [--restarts COUNT] [--forgetful COUNT] [--manners COUNT]
        [--broken SEEDS]

LIBRARY_FOLDER is what `bin/library` wrote. If nothing more is said all of this is tried, in sizes for each day:

- `--rebalance`: rebalances after so many random lawful logs, and after each prefix of the traces in `examples/`. What
  they come to is judged apart from the library, and so is what it says of stable groups and of work; and each
  rebalancer with a bug is found.
- `--restarts`: so many groups, of which one node comes and goes again and again: how often does that stop the others'
  work?
- `--forgetful`: so many groups, of which one node comes back again and again, and a member starts anew that doesn't
  remember that: for how long does work stand still?
- `--manners`: so many groups in which nothing goes wrong: how long do their members wait, and how often do they ask?
- `--broken`: groups of the simulation, of so many seeds at most, whose workers have a bug: each is found.

The last line is 'N passed, M failed'; the exit status is 0 if M is 0, otherwise 1.
"""
from __future__ import annotations

import argparse
import os
import sys
from collections import Counter
from pathlib import Path

from counts import Counts
from places import ROOT
from .broken import BROKEN as BROKEN_WORKERS, found
from .manners import Manners
from .restarting import Forgetful, Restarting
from .rebalanced import BROKEN, prefix_cases, random_cases, try_case, wrong_answer

LOGS, SETS, RESTARTS, FORGETFUL, MANNERS, SEEDS = 300, 2, 12, 12, 12, 200
FEW = 20  # logs, among which each rebalancer with a bug is found


def count(counts: Counts, wrong: str | None) -> None:
    counts.hold(wrong is None, wrong or '')


def try_rebalances(counts: Counts, logs: int) -> None:
    """Rebalances make a group stable."""
    rows = 0
    for case in (*random_cases(logs), *prefix_cases(list((ROOT / 'examples').glob('*.csv')), SETS)):
        rows += len(case.rows)
        count(counts, try_case(case))
        count(counts, wrong_answer(case))
    print(f'rebalances: after {rows} rows in all')
    for name, rebalancer in BROKEN.items():
        wrongs = filter(None, (try_case(case, rebalancer) for case in random_cases(FEW)))
        first = next(wrongs, None)
        counts.hold(first is not None, f'a rebalancer that {name} is not found')
        print(f'a rebalancer that {name}: {first}'[:200])


def try_groups(counts: Counts, group: type[Restarting] | type[Forgetful] | type[Manners], last: int) -> None:
    """Groups of these seeds, and what happened to them."""
    happened: Counter[str] = Counter()
    for seed in range(1, last + 1):
        simulation = group(seed)
        wrong = simulation.tried()
        happened.update(simulation.happened)
        counts.hold(wrong is None, f'{group.__name__}, seed {seed}: {wrong}')
    print(
        f'{group.__name__}: {last} groups',
        *(f'  {what}: {times}' for what, times in sorted(happened.items())),
        sep='\n',
    )


def try_broken(counts: Counts, seeds: int) -> None:
    """Each bug of a worker is found."""
    for name, worker in BROKEN_WORKERS.items():
        first = found(worker, seeds)
        counts.hold(first is not None, f'a worker that {name} is not found')
        print(f'a worker that {name}: {first}'[:200])


def read_options() -> argparse.Namespace:
    parser = argparse.ArgumentParser(description=__doc__, formatter_class=argparse.RawDescriptionHelpFormatter)
    parser.add_argument('library', type=Path)
    for part in ('--rebalance', '--restarts', '--forgetful', '--manners', '--broken'):
        parser.add_argument(part, type=int, metavar='COUNT')
    return parser.parse_args()


def main() -> int:
    options, counts = read_options(), Counts()
    os.environ['BULLY_LIBRARY'] = str(options.library.resolve())
    is_all = not any((options.rebalance, options.restarts, options.forgetful, options.manners, options.broken))
    if is_all or options.rebalance:
        try_rebalances(counts, options.rebalance or LOGS)
    if is_all or options.restarts:
        try_groups(counts, Restarting, options.restarts or RESTARTS)
    if is_all or options.forgetful:
        try_groups(counts, Forgetful, options.forgetful or FORGETFUL)
    if is_all or options.manners:
        try_groups(counts, Manners, options.manners or MANNERS)
    if is_all or options.broken:
        try_broken(counts, options.broken or SEEDS)
    return counts.end()


if __name__ == '__main__':
    sys.exit(main())
