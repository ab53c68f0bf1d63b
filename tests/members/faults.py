"""Tries faults of members in processes of their own, over a file or over etcd, while a recorder judges their work and a
monitor what they do.

    tests/members/run faults LIBRARY_FOLDER [--store file|etcd|servers|network] [--cooperative] [--kind KIND]
        [--worker WORKER] [--faults WORDS,..] [--few | --count COUNT | --seconds SECONDS [--stable SHARE]]
        [--nodes COUNT] [--ttl SECONDS] [--seed SEED] [--patience SECONDS] [--idle SECONDS [--share PERCENT]]
        [--locks COUNT] [--errors SHARE] [--program PATH] [--folder FOLDER]
    tests/members/run faults --list

LIBRARY_FOLDER is what `bin/library` wrote. The log is in a file, in a server of etcd, or in three servers at etcd's
own pace; as `network` these and all members are in network namespaces, if this is root. `fault_list.py` has the
faults, which `--list` prints: those with some words of WORDS are tried, or all that need not be named. A group of
more than three nodes gets these while it works. COUNT faults happen by a seed, or one of each kind, or with `--few`
four that give each kind of act: after each part of each the group must become stable, and work. Or faults happen for
SECONDS, each once at least: after a SHARE of them the group gets time to become stable, and after the others the next
one comes.

Each fault must be seen to happen, and no member may end but by one. At the end all must leave in order; the logs must
be lawful, also with everything said if PATH is the program `bully`; no two workers may have worked on one partition
at one moment, and no token may have fallen (`recorder.py`); after each change of the epoch as many partitions as
possible must be where they were; and acts must keep the premises of the laws (`monitor.py`): what a fault breaks must
be refused by the name of its premise. `--idle` measures an idle group, and `--locks` how long `etcdctl lock` takes
with the same ttl. The last line is 'N passed, M failed'; the exit status is 0 if M is 0, otherwise 1.
"""
from __future__ import annotations

import argparse
import contextlib
import os
import random
import shutil
import signal
import statistics
import subprocess
import sys
import tempfile
import time
from collections.abc import Callable, Sequence
from functools import partial
from itertools import islice
from pathlib import Path

from counts import Counts
from places import ROOT, environment
from .etcd_servers import PROGRAM
from .fault_list import FAULTS, FEW
from .groups import HERE, KINDS, NAMES, PATIENCE, WORKERS, Group, Work
from .locks import time_lock
from .premises import PREMISES
from .stores import KINDS as STORES, Store
from .trial import Fault, Trial, in_turns

PARTITIONS = 4  # of a node
FEW_NODES = 3
RATIO = 1.5  # a death may take so many times as long as a lock
DEATH = 'a member killed'


def read_options() -> argparse.Namespace:
    parser = argparse.ArgumentParser(description=__doc__, formatter_class=argparse.RawDescriptionHelpFormatter)
    parser.add_argument('library', type=Path, nargs='?')
    parser.add_argument('--store', choices=STORES, default='file')
    parser.add_argument('--cooperative', action='store_true', help='a change stops only the work that moves')
    kinds = 'one worker, one for each partition, or one that stays'
    parser.add_argument('--kind', choices=KINDS, default='whole', help=kinds)
    worker = 'what works: the worker, or a child or a daemon that it leaves; or it takes no notice of SIGTERM'
    parser.add_argument('--worker', choices=WORKERS, default='plain', help=worker)
    parser.add_argument('--faults', type=lambda words: words.split(','), default=[], metavar='WORDS,..')
    parser.add_argument('--few', action='store_true')
    parser.add_argument('--count', type=int)
    parser.add_argument('--seconds', type=float)
    parser.add_argument('--stable', type=float, default=0.7, metavar='SHARE')
    parser.add_argument('--nodes', type=int, choices=range(2, len(NAMES) + 1))
    parser.add_argument('--ttl', type=float, default=2.0, help='of whole seconds, and no less than 2, over etcd')
    parser.add_argument('--seed', type=int, default=1)
    patience = 'seconds that anything may take: with a bug it may never come'
    parser.add_argument('--patience', type=float, default=PATIENCE, help=patience)
    parser.add_argument('--idle', type=float, default=0.0, help='seconds for which an idle group is looked at')
    parser.add_argument('--share', type=float, default=1.0, help='percent of a processor that an idle member may take')
    parser.add_argument('--locks', type=int, default=0)
    parser.add_argument('--errors', type=float, default=0.0, metavar='SHARE', help='of requests to three servers')
    parser.add_argument('--program', type=Path, help='the program `bully`, by which the log is annotated')
    parser.add_argument('--folder', type=Path, help='keep the log, the work and the acts there')
    parser.add_argument('--list', action='store_true')
    options = parser.parse_args()
    if options.library is None and not options.list:
        parser.error('there is no LIBRARY_FOLDER')
    options.nodes = options.nodes or (FEW_NODES if options.few else len(NAMES))
    return options


# ---- Which faults


def lacks(fault: Fault, store: str) -> str:
    """What it takes that isn't there; a word alone if that is another store."""
    stores = {'file': ['file'], 'namespaces': ['file'], 'servers': ['servers', 'network'], 'network': ['network']}
    if store not in stores.get(fault.needs, [kind for kind in STORES if fault.needs != 'etcd' or kind != 'file']):
        return fault.needs
    if fault.needs == 'namespaces' and subprocess.call(['sh', '-c', 'unshare --time --fork true 2> /dev/null']) != 0:
        return 'it takes root and time namespaces'
    return 'there is no compiler `cc`' if fault.rates and shutil.which('cc') is None else ''


def named(options: argparse.Namespace, counts: Counts) -> list[Fault]:
    """The faults that are asked for, and can be tried."""
    found: list[Fault] = []
    for fault in FAULTS:
        is_asked = any(words in fault.name for words in options.faults) if options.faults else not fault.is_named
        lack = lacks(fault, options.store) if is_asked else 'not asked for'
        if is_asked and ' ' in lack:
            counts.skip(fault.name, lack)
        if not lack:
            found.append(fault)
    return found


# ---- A group


class Uncounted(Counts):
    """Counts for itself what a group does while a premise is broken: then nothing is promised."""

    def hold(self, is_so: bool, what: str, *more: object) -> None:
        self.failed += not is_so


def occurring(options: argparse.Namespace) -> set[str]:
    """The premises by which acts must be judged, if each kind of act occurs. Work ends on a partition alone only in
    some groups."""
    if not options.few and (options.seconds is None or options.faults):
        return set()
    has_parts = options.cooperative or options.kind == 'each'
    return PREMISES.keys() - ({'HasEndedOn'} if not has_parts else set())


def run(
    folder: Path, options: argparse.Namespace, faults: Sequence[Fault], counts: Counts,
    broken: Sequence[str] = (), within: Callable[[str], Sequence[str]] | None = None,
) -> None:  # fmt: skip
    """Faults of one group, with a recorder, whose members write down what they do; nothing is left of it. These
    premises are broken all the time."""
    with contextlib.ExitStack() as closing:
        acts, few = folder / 'acts', NAMES[: min(options.nodes, FEW_NODES)]
        acts.mkdir(parents=True)
        store = Store(options.store, folder, options.errors)
        closing.callback(store.close)
        faults = [fault for fault in faults if fault.needs != 'network' or store.network is not None]
        stop = ['--stop-seconds', str(options.ttl / 2)] if options.worker == 'stubborn' else []
        group = Group(
            folder, store.addresses, options.ttl, within or store.within, few, PARTITIONS * len(few),
            [*KINDS[options.kind], *stop], partial(Work, worker=options.worker),
            ['--rebalance', 'cooperative'] if options.cooperative else [], acts, Uncounted() if broken else counts,
            options.patience,
        )  # fmt: skip
        closing.callback(group.work.close)
        closing.callback(group.close)
        group.work.broken += [(0.0, float('inf'))] if broken else []
        trial = Trial(group, store, random.Random(options.seed), options.stable if options.seconds else 1.0)
        closing.callback(trial.close)
        chosen = try_group(trial, options, faults)
        group.counts = counts
        premises = [*broken, *(premise for fault in chosen for premise in fault.breaks)]
        group.judge_acts(occurring(options), list(dict.fromkeys(premises)))
        if not broken:  # else nothing more is promised
            judge(trial, options, chosen)


def try_group(trial: Trial, options: argparse.Namespace, faults: Sequence[Fault]) -> list[Fault]:
    """The group begins, faults happen to it, and it leaves. Which faults these were."""
    group, names = trial.group, NAMES[: options.nodes]
    if trial.start(names, PARTITIONS * len(names)) and options.idle:
        group.idle(options.idle, options.share)
    chosen = choose(trial, options, faults)
    compare(group, time_locks(trial, options))
    group.leave()
    return chosen


def judge(trial: Trial, options: argparse.Namespace, chosen: Sequence[Fault]) -> None:
    """What the group left, and what happened to it."""
    group = trial.group
    group.judge(options.program)
    never = [fault.name for fault in dict.fromkeys(chosen) if not trial.happened[fault.name]]
    group.count(not never, f'these never happened: {", ".join(never)}')
    trial.tell()


def choose(trial: Trial, options: argparse.Namespace, faults: Sequence[Fault]) -> list[Fault]:
    """Has the faults happen that the options ask for. Which these were."""
    if options.seconds is not None:
        trial.run_for(options.seconds, faults)
        return list(faults)
    if options.few:
        trial.order = iter('ba')  # so that a member whose clock is fast sees how the lease of another one ends
        chosen = [next(fault for fault in FAULTS if fault.name == name) for name in FEW]
    else:
        chosen = list(islice(in_turns(faults, trial.choice), options.count or sum(fault.times for fault in faults)))
        trial.choice.shuffle(chosen)
    trial.run_each(chosen)
    return chosen


def time_locks(trial: Trial, options: argparse.Namespace) -> list[float]:
    """How long so many locks take."""
    servers, hosts = trial.store.servers, [trial.store.within(name) for name in 'ab']
    numbers = range(options.locks if servers is not None else 0)
    return [time_lock(servers, hosts, f'lock{each}', options.ttl, trial.choice) for each in numbers if servers]


def compare(group: Group, locks: list[float]) -> None:
    """The death of a member beside that of the holder of a lock, if there were some."""
    if not locks:
        return
    death, lock = statistics.median(seconds for seconds, _ in group.times[DEATH]), statistics.median(locks)
    print(f'etcdctl lock: {len(locks)} times, held by the other in {lock:.2f} s, at most {max(locks):.2f} s')
    print(f'a death takes {death / lock:.2f} times as long')
    group.count(death <= RATIO * lock, f'a death takes more than {RATIO} times as long as a lock')


# ---- Clocks of other rates


def compiled(folder: Path) -> Path:
    """The library that has a clock run at another rate."""
    made = folder / 'clock_rate.so'
    words = ['-O1', '-Wall', '-Wextra', '-Werror', '-shared', '-fPIC', '-o', str(made), str(HERE / 'clock_rate.c')]
    subprocess.run(['cc', *words], check=True)
    return made


def run_with_clocks(folder: Path, options: argparse.Namespace, fault: Fault, counts: Counts) -> None:
    """The few faults happen to a group whose members have these clocks; or to one in a process that has one itself."""
    print(f'{fault.name}:', flush=True)
    folder.mkdir(parents=True)
    library, since = compiled(folder), time.clock_gettime_ns(time.CLOCK_BOOTTIME)

    def clock(rate: float) -> dict[str, str]:
        return {'LD_PRELOAD': str(library), 'CLOCK_SINCE': str(since), 'CLOCK_RATE': str(rate)}

    def within(name: str) -> Sequence[str]:
        return 'env', *(f'{word}={value}' for word, value in clock(fault.rates[NAMES.index(name)]).items())

    options = argparse.Namespace(**{**vars(options), 'few': True, 'nodes': FEW_NODES, 'seconds': None})
    if len(fault.rates) > 1:
        run(folder / 'group', options, (), counts, fault.breaks, within)
        return
    path = os.pathsep.join([str(ROOT / 'tests'), os.environ['PYTHONPATH']])
    words = [sys.executable, '-m', 'members.faults', str(options.library), '--few', '--store', options.store]
    words += [*(['--cooperative'] if options.cooperative else []), '--kind', options.kind, '--ttl', str(options.ttl)]
    ended = subprocess.run(
        words, env=environment(**clock(fault.rates[0]), PYTHONPATH=path), stdout=subprocess.PIPE, text=True, check=False
    )
    print(ended.stdout, end='', flush=True)
    counts.add(ended.stdout, ended.returncode, fault.name)


# ---- The program


def run_all(folder: Path, options: argparse.Namespace, counts: Counts) -> None:
    if options.store != 'file' and PROGRAM is None:
        counts.skip('tests/members/faults', 'no program `etcd` is on the path')
        return
    faults = named(options, counts)
    for number, fault in enumerate(fault for fault in faults if fault.rates):
        run_with_clocks(folder / str(number), options, fault, counts)
    others = [fault for fault in faults if not fault.rates]
    if others:
        run(folder, options, others, counts)


def main() -> int:
    options, counts = read_options(), Counts()
    if options.list:
        print(*(fault.name for fault in FAULTS), sep='\n')
        return 0
    os.environ['BULLY_LIBRARY'] = str(options.library.resolve())
    for number in (signal.SIGTERM, signal.SIGHUP):  # it ends as a failure does, so that nothing is left
        signal.signal(number, lambda number, _: sys.exit(128 + number))
    with tempfile.TemporaryDirectory() as room:
        run_all((options.folder or Path(room)).resolve(), options, counts)
    return counts.end()


if __name__ == '__main__':
    sys.exit(main())
