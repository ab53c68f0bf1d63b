"""Simulates groups of members by the proved rules, one for each seed, over the stores of the package.

    tests/members/run simulate LIBRARY_FOLDER [--from SEED] [--to SEED | --seed SEED] [--over-etcd | --told |
    --careless-store]
        [--epochs | --maintenance | --trouble NAME] [--eager | --cooperative] [--kind KIND]
    tests/members/run simulate LIBRARY_FOLDER --long [CHANGES]

LIBRARY_FOLDER is what `bin/library` wrote. Each group must become stable once there is no more trouble, its logs must
be lawful, and no two members may work on one partition at one moment, but for those that were paused beyond their
lease; and then by tokens that the resource can tell apart. The log is that of `bully.memory`; with `--over-etcd` that
of `bully.etcd`, over an etcd whose leaders are lost; with `--told` members wait there by the package's own watch, and
read snapshots from what it reported; with `--careless-store` that in memory compares of an append only where the log
ends, which must be enough, because each writer has read a snapshot (`snapshots_suffice`). Half of the groups are
cooperative, and each has one of three kinds of workers (`whole`, `each`, `talk`), unless `--eager`, `--cooperative` or
`--kind` says so. With `--epochs` logs are soon full, groups are resized often, and old epochs are taken away; with
`--maintenance` nodes are drained, and groups are paused; without these a tenth of the seeds has the one, and a tenth
the other; and `--trouble` names a kind of `trouble.py`. `--long` is an eager and a cooperative group of five with
10,000 changes of which members run, or CHANGES, over many epochs: memory must not grow. A kind of trouble that never
happened among 200 seeds or more is a failure, too. The last line is 'N passed, M failed'; the exit status is 0 if M is
0, otherwise 1. """
from __future__ import annotations

import argparse
import os
import sys
from collections import Counter
from pathlib import Path

from counts import Counts
from .driven import Wrong
from .long import Long
from .over_etcd import TROUBLES_OF_ETCD, OverEtcd, Watching
from .over_memory import TROUBLES_OF_KEPT_WORK, TROUBLES_OF_MAINTENANCE, CarelessStore, OverMemory
from .stabilizing import Mode, Simulation
from .trouble import BY_NAME, TROUBLES, TROUBLES_OF_COOPERATIVE, Epochs, Maintained, Trouble
from .working import KINDS

ENOUGH = 200  # seeds, among which each kind of trouble must be


def read_options() -> argparse.Namespace:
    parser = argparse.ArgumentParser(description=__doc__, formatter_class=argparse.RawDescriptionHelpFormatter)
    parser.add_argument('library', type=Path)
    parser.add_argument('--from', dest='first', type=int, default=1, metavar='SEED')
    parser.add_argument('--to', dest='last', type=int, default=1000, metavar='SEED')
    parser.add_argument('--seed', type=int)
    parser.add_argument('--over-etcd', action='store_true')
    parser.add_argument('--told', action='store_true')
    parser.add_argument('--careless-store', action='store_true')
    parser.add_argument('--epochs', dest='trouble', action='store_const', const=Epochs.__name__)
    parser.add_argument('--maintenance', dest='trouble', action='store_const', const=Maintained.__name__)
    parser.add_argument('--trouble', choices=BY_NAME)
    parser.add_argument('--eager', dest='is_cooperative', action='store_false', default=None)
    parser.add_argument('--cooperative', dest='is_cooperative', action='store_true')
    parser.add_argument('--kind', choices=sorted(KINDS))
    parser.add_argument('--long', type=int, nargs='?', const=10_000, metavar='CHANGES')
    return parser.parse_args()


def trouble_of(options: argparse.Namespace, seed: int) -> type[Trouble]:
    """What is asked for; otherwise of a tenth of the seeds with epochs, and of a tenth with maintenance."""
    return BY_NAME[options.trouble] if options.trouble else {0: Epochs, 5: Maintained}.get(seed % 10, Trouble)


def group_of(options: argparse.Namespace, seed: int) -> Simulation:
    """The group that the words ask for, by its seed."""
    if options.careless_store:
        return OverMemory(seed, trouble_of(options, seed), Mode(options.is_cooperative, options.kind), CarelessStore)
    group: type[Watching | OverEtcd | OverMemory] = (
        Watching if options.told else OverEtcd if options.over_etcd else OverMemory
    )
    return group(seed, trouble_of(options, seed), Mode(options.is_cooperative, options.kind))


def troubles_of(options: argparse.Namespace, seeds: int) -> list[str]:
    """What must happen among so many groups."""
    has_kept = options.is_cooperative is not False and options.kind is None
    is_maintained = options.trouble == Maintained.__name__ or not options.trouble and seeds >= 5 * ENOUGH
    return [
        *TROUBLES,
        *(TROUBLES_OF_COOPERATIVE if has_kept and not options.trouble else ()),
        *(TROUBLES_OF_MAINTENANCE if is_maintained else ()),
        *(TROUBLES_OF_KEPT_WORK if has_kept and is_maintained else ()),
        *(TROUBLES_OF_ETCD if options.told or options.over_etcd else ()),
        *(['a watch begins anew'] if options.told else ()),
    ]


def try_seeds(options: argparse.Namespace, counts: Counts) -> None:
    """Groups of these seeds."""
    happened: Counter[str] = Counter()
    seeds = range(options.first, options.last + 1) if options.seed is None else [options.seed]
    for seed in seeds:
        simulation = group_of(options, seed)
        wrong = simulation.tried()
        happened.update(simulation.happened)
        counts.hold(wrong is None, f'seed {seed}, {simulation.mode}: {wrong}')
    print('\n'.join(f'  {what}: {times}' for what, times in sorted(happened.items()) if times))
    if len(seeds) >= ENOUGH:
        for what in [what for what in troubles_of(options, len(seeds)) if not happened[what]]:
            counts.hold(False, f'it never happened: {what}')


def try_long(changes: int, is_cooperative: bool, counts: Counts) -> None:
    """One group that goes on for long."""
    long, wrong = Long(is_cooperative), ''
    try:
        long.run(changes)
    except (Wrong, AssertionError) as raised:
        wrong = str(raised)
    print(long)
    counts.hold(not wrong, wrong)


def main() -> int:
    options, counts = read_options(), Counts()
    os.environ['BULLY_LIBRARY'] = str(options.library.resolve())
    if options.long:
        for is_cooperative in (False, True) if options.is_cooperative is None else (options.is_cooperative,):
            try_long(options.long, is_cooperative, counts)
    else:
        try_seeds(options, counts)
    return counts.end()


if __name__ == '__main__':
    sys.exit(main())
