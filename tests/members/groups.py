"""A group of members in processes of their own, over a store; and what came of them and of their work."""
from __future__ import annotations

import contextlib
import math
import os
import statistics
import subprocess
import sys
import time
from collections.abc import Callable, Collection, Iterator, Sequence, Set as AbstractSet
from pathlib import Path
from typing import TypeVar

from bully import Status, check
from bully.clocks import SECOND
from bully.command import parser
from bully.shared_log import Log, Unanswered
from bully.sqlite import SqliteLog
from bully.store_options import store_of
from bully.view import GroupView, LogView
from counts import Counts
from places import PYTHON, environment
from .monitor import judge
from .premises import PREMISES, Act, act_of
from .processes import guards_of, is_running, own_memory, processor_seconds
from .tables import kept, most_kept, owners_by_name
from .waiting import wait_until

HERE = Path(__file__).resolve().parent
NAMES = 'abcde'
PARTITIONS = 20
CONFIG = """
nodes = %d
partitions = %d
events = 1000
turns = 1
names = %s
"""
PATIENCE = 60.0  # seconds that anything may take: a node that comes again and again is admitted after a third of that
ROW = 64  # bytes that a row of a worker has at most
SPANS = 6  # how often an idle member is looked at
MEMORY = 24.0  # MiB that an idle member and its watchdog have of their own


KINDS = {'whole': (), 'each': ('--each',), 'talk': ('--talk',)}  # of workers: the words of `run`

# How a worker is begun: alone; so that what works is a child of it, or a daemon with a session of its own, which it
# leaves when it dies; or so that it takes no notice of SIGTERM.
WORKERS: dict[str, tuple[str, ...]] = {
    'plain': (), 'child': ('sh', '-c', '"$@"; exit', 'sh'), 'stubborn': ('sh', '-c', 'trap "" TERM; exec "$@"', 'sh'),
    'daemon': ('sh', '-c', 'setsid -f "$@"; exec sleep 100000', 'sh'),
}  # fmt: skip

_Found = TypeVar('_Found')


def shown_seconds(what: str, seconds: Sequence[float]) -> str:
    """Some times, for people; nothing, if there are none."""
    return f', {what} {statistics.median(seconds):.2f} s, at most {max(seconds):.2f} s' if seconds else ''


class Work:
    """What the workers did, as a recorder in a process of its own has it: a file for each partition, with a row for
    each unit, and one of their faults."""

    def __init__(self, folder: Path, partitions: int, worker: str = 'plain') -> None:
        """The worker is begun in one of the ways of `WORKERS`."""
        self.folder, self.partitions, door = folder, partitions, folder / 'recorder'
        folder.mkdir()
        python = [sys.executable, '-I', '-S']
        self.worker = [*WORKERS[worker], *python, str(HERE / 'worker.py'), str(folder), str(door)]  # its words
        self.recorder = subprocess.Popen(
            [*python, str(HERE / 'recorder.py'), str(door), str(folder)], stdin=subprocess.PIPE
        )
        wait_until(door.exists)
        # From when to when a premise was broken on purpose, by the clock of leases.
        self.broken: list[tuple[float, float]] = []

    def sizes(self) -> list[int]:
        """How much was done on each partition."""
        files = [self.folder / str(partition) for partition in range(self.partitions)]
        return [file.stat().st_size if file.exists() else 0 for file in files]

    def last_units(self) -> list[tuple[int, str]]:
        """Token and node of the last unit on each partition."""
        return [self._last_unit(partition) for partition in range(self.partitions)]

    def _last_unit(self, partition: int) -> tuple[int, str]:
        if not (self.folder / str(partition)).exists():
            return 0, ''
        with open(self.folder / str(partition), 'rb') as file:
            file.seek(max(0, file.seek(0, os.SEEK_END) - 2 * ROW))
            rows = file.read().decode().split('\n')[-2:-1]  # of the whole ones
        token, node = rows[0].split() if rows else ('0', '')
        return int(token), node

    def units(self, partition: int) -> list[list[str]]:
        """The units on a partition that were done: token and node of each."""
        file = self.folder / str(partition)
        return [row.split() for row in file.read_text().split('\n')[:-1]] if file.exists() else []

    def faults(self, kind: str, are_excused: bool = False) -> list[str]:
        """What workers did wrong of this kind; or what they did while a premise was broken."""
        file = self.folder / 'faults'
        rows = file.read_text().splitlines() if file.exists() else []
        return [row for row in rows if row.startswith(f'{kind} ') and self.is_excused(row) == are_excused]

    def excused(self) -> list[str]:
        return self.faults('overlap', True) + self.faults('old', True)

    def is_excused(self, row: str) -> bool:
        """Whether a unit was asked for while a premise was broken."""
        moment = int(row.split()[5].rstrip(':')) / SECOND
        return any(since <= moment < until for since, until in self.broken)

    def close(self) -> int:
        """The status of the recorder."""
        assert self.recorder.stdin is not None
        self.recorder.stdin.close()
        return self.recorder.wait(PATIENCE)


def acts_of(file: Path) -> Iterator[Act]:
    """The acts of a file; not the last line if that isn't whole, since its writer was killed."""
    return map(act_of, file.read_bytes().split(b'\n')[:-1])


class Group:
    """Members, and what came of them."""

    def __init__(
        self, folder: Path, stores: dict[str, str], ttl: float, within: Callable[[str], Sequence[str]] = lambda _: (),
        names: Sequence[str] = NAMES, partitions: int = PARTITIONS, words: Sequence[str] = (),
        work: Callable[[Path, int], Work] = Work, init: Sequence[str] = (), acts: Path | None = None,
        counts: Counts | None = None, patience: float = PATIENCE,
    ) -> None:  # fmt: skip
        """A new group. `stores` has the address of the log for each member, and for the view of the group ('').
        `within` has the words by which a process is begun where a member is; `words` are more ones for each member, and
        `init` for the making of the log; `work` makes what has the work, in a folder; in the folder `acts`, if there is
        one, members write down what they do (`instrumented_member.py`); and `patience` are the seconds that anything
        may take."""
        self.folder, self.ttl, self.words, self.acts = folder, ttl, list(words), acts
        self.stores, self.within, self.patience = stores, within, patience
        self.counts = counts if counts is not None else Counts()
        self.configs = 0
        self.config = self.configured(names, partitions)
        self.work = work(folder / 'work', partitions)
        self.members: dict[str, subprocess.Popen[bytes]] = {}
        self.times: dict[str, list[tuple[float, int]]] = {}  # of changes: when the group was stable, by how many rows
        made = self.command('init', '--config', str(self.config), *init).wait(PATIENCE)
        self.count(made == 0, 'no log can be made')
        self.view = LogView(self.opened())
        self.shown = self.before = self.view.show()  # as it was seen last, and before the last change
        self.begun = 0.0  # when the last change began
        self.meanwhile: Callable[[], object] = lambda: None  # what else is done again and again while it is waited
        self.ends: dict[int, Sequence[int]] = {}  # with which statuses members may end, by their processes

    def configured(self, names: Sequence[str], partitions: int) -> Path:
        """A new file with settings."""
        self.configs += 1
        file = self.folder / f'{self.configs}.toml'
        file.write_text(CONFIG % (len(names), partitions, list(names)))
        return file

    def opened(self) -> Log:
        """The log."""
        return store_of(parser().parse_args(['status', '--log', self.stores['']])).open()

    def command(self, name: str, *more: str, member: str = '', around: Sequence[str] = ()) -> subprocess.Popen[bytes]:
        """Starts `bully-member`, below these words, and where the member is, if one is named."""
        within, program, path = [*around, *(self.within(member) if member else ())], ['bully_member'], str(PYTHON)
        if member and self.acts is not None:
            program, path = ['members.instrumented_member', str(self.acts)], os.pathsep.join([str(HERE.parent), path])
        words = [
            *within, sys.executable, '-W', 'error', '-m', *program, name, '--log', self.stores[member], *more,
        ]  # fmt: skip
        with open(self.said(member or name), 'ab') as said:
            return subprocess.Popen(words, env=environment(PYTHONPATH=path), stdout=said, stderr=said)

    def said(self, name: str) -> Path:
        """The file of what a member, or another command, says."""
        return self.folder / f'{name}.said'

    def begin(self, name: str, around: Sequence[str] = ()) -> None:
        """A process for the node, below these words."""
        more = [
            '--config', str(self.config), '--node', name, '--ttl', str(self.ttl), *self.words, '--', *self.work.worker,
        ]  # fmt: skip
        self.members[name] = self.command('run', *more, member=name, around=around)

    def begin_all(self, names: Sequence[str] = NAMES) -> None:
        for name in names:
            self.begin(name)

    def count(self, is_so: bool, what: str) -> None:
        self.counts.hold(is_so, what)

    def may_have_ended(self, member: subprocess.Popen[bytes]) -> bool:
        """Whether a member that has ended may have this status, because of what happened to it."""
        return member.returncode in self.ends.get(member.pid, ())

    def ended(self, process: subprocess.Popen[bytes]) -> int | None:
        """The status of a process that is about to end; none, if it doesn't."""
        with contextlib.suppress(subprocess.TimeoutExpired):
            return process.wait(self.patience)
        return None

    # The state of the group.

    def snapshot(self) -> GroupView | None:
        """What the view shows of the group; nothing, if the store doesn't answer."""
        try:
            self.shown = self.view.show()
        except Unanswered:
            return None
        return self.shown

    def show(self) -> GroupView:
        """What the view shows of the group."""
        end = time.monotonic() + PATIENCE
        while time.monotonic() < end:
            shown = self.snapshot()
            if shown is not None:
                return shown
        raise TimeoutError('the store does not answer')

    def is_stable(self, shown: GroupView) -> bool:
        """Whether all nodes that have a process work, under the highest, and own all partitions; and no others are
        up."""
        alive = [node.name for node in shown.nodes if node.name in self.members]
        up = [node.name for node in shown.nodes if node.status is not Status.DOWN]
        normal = [node.name for node in shown.nodes if node.status is Status.NORMAL]
        return up == normal == alive and shown.coordinator == alive[-1] and set(shown.owners) == set(alive)

    def stay_stable(self, seconds: float, end: float) -> float | None:
        """Waits until the group has been stable for so many seconds. When that began; nothing, if it isn't so by the
        end."""
        since, rows = 0.0, -1

        def since_when() -> float | None:
            nonlocal since, rows
            shown, now = self.snapshot(), time.monotonic()
            if shown is None or not self.is_stable(shown):
                rows = -1
            elif shown.rows != rows:
                since, rows = now, shown.rows
            return since if rows >= 0 and now >= since + seconds else None

        return self.await_value(since_when, end)

    def await_value(self, find: Callable[[], _Found], end: float) -> _Found:
        """Waits until that finds something, up to the end. What it found."""
        while True:
            self.meanwhile()
            found = find()
            if found or time.monotonic() >= end:
                return found
            time.sleep(0.01)

    def goes_on(self, but: str = '') -> bool:
        """Waits until one more unit is done on each partition by its owner, in an eager group by the token of the
        table, except on those of the node `but`, which have no owner while it may not work on them. Whether it is."""
        before, left_out = self.work.sizes(), (but, None) if but else ()

        def is_done() -> bool:
            shown, sizes, units = self.snapshot(), self.work.sizes(), self.work.last_units()
            if shown is None:
                return False
            others = [each for each, owner in enumerate(shown.owners) if owner not in left_out]
            are_owners = all(units[each][1] == shown.owners[each] for each in others)
            is_by_token = shown.mode == 'cooperative' or all(units[each][0] == shown.token for each in others)
            return are_owners and is_by_token and all(sizes[each] > before[each] for each in others)

        return self.await_value(is_done, time.monotonic() + self.patience)

    def mark(self) -> None:
        """A change is made now."""
        self.before, self.begun = self.shown, time.monotonic()

    def settle(self, what: str, steady: float = 0.0) -> bool:
        """Waits until the group is stable after a change, for so long, and works. It notes how long that took, and how
        many rows."""
        self.await_value(self.have_begun, time.monotonic() + PATIENCE)
        stable_since = self.stay_stable(steady, time.monotonic() + self.patience)
        works = stable_since is not None and self.goes_on()
        self.count(stable_since is not None, f'{what}: not stable in {self.patience:g} s')
        self.count(works, f'{what}: no work')
        for name, member in self.members.items():
            is_there = member.poll() is None or self.may_have_ended(member)
            self.count(is_there, f'{what}: {name} ended by itself, with status {member.returncode}')
        if stable_since is None or not works:
            return False
        before, after = self.before, self.shown
        rows = after.rows - (before.rows if after.epoch == before.epoch else 0)
        self.times.setdefault(what, []).append((stable_since - self.begun, rows))
        return True

    def have_begun(self) -> bool:
        """Whether each process of a member writes down what it does, or has ended; if they do that. This takes as long
        as the start of Python."""
        there = {file.name.split('-')[0] for file in self.acts.iterdir()} if self.acts is not None else None
        return there is None or all(str(each.pid) in there or each.poll() is not None for each in self.members.values())

    def become_stable(self, what: str, change: Callable[[], object], steady: float = 0.0) -> bool:
        """Makes a change, and waits until the group is stable after it, and works. Whether that came."""
        self.mark()
        change()
        return self.settle(what, steady)

    def resize(self, names: Sequence[str], partitions: int) -> Path:
        """The group is to get these settings while its members work. The file that has them."""
        epoch, file = self.show().epoch, self.configured(names, partitions)
        status = self.ended(self.command('resize', '--config', str(file)))
        self.count(status == 0, f'a resize ends with status {status}')
        self.work.partitions = partitions
        self.count(self.show().epoch == epoch + 1, 'another epoch')
        return file

    # While the group is stable, and at its end.

    def idle(self, seconds: float, most: float) -> None:
        """What members that have nothing to do cost, with watchdogs and keepers: no row, less than this percentage of a
        processor, and less than 24 MiB. Processes beside them can only add to that time, so the least of up to six
        spans counts for each member."""
        processes = {name: [member.pid, *guards_of(member.pid)] for name, member in self.members.items()}
        rows, spans, shares = self.show().rows, 0, [math.inf] * len(processes)
        while spans < SPANS and max(shares) >= most:
            shares = [min(pair) for pair in zip(shares, shares_over(seconds, processes))]
            spans += 1
        self.count(self.show().rows == rows, 'an idle group has more rows')
        self.count(max(shares) < most, f'an idle member took {max(shares):.2f} % of a processor')
        memory = sorted(sum(map(own_memory, each)) for each in processes.values())
        self.count(memory[-1] < MEMORY, f'an idle member has {memory[-1]:.1f} MiB of its own')
        cost = f'{min(shares):.2f} to {max(shares):.2f} % of a processor, {memory[0]:.1f} to {memory[-1]:.1f} MiB'
        print(f'idle, {spans} times {seconds:g} s: no row, and for a member {cost} of its own')

    def leave(self) -> None:
        """All leave in order, one of them after the others."""
        names = list(self.members)
        for leaving in (names[:-1], names[-1:]):
            for name in leaving:
                self.members[name].terminate()
            for name in leaving:
                status = self.ended(self.members[name])
                is_so = status == 0 or self.may_have_ended(self.members[name])
                self.count(is_so, f'{name} ended with status {status}')

    def judge(self, program: Path | None = None) -> None:
        """What all have left; also with everything said, if there is the program `bully`."""
        shown = self.show()
        self.count(not any(node.is_live for node in shown.nodes), 'a member is still live')
        self.count(all(node.status is Status.DOWN for node in shown.nodes), 'a node is still up')
        for file in sorted(self.folder.glob('*.said')):
            self.count('Traceback' not in file.read_text(errors='replace'), f'{file.name} has a traceback')
        self.judge_log(program)
        self.judge_work()

    def written(self) -> Iterator[Act]:
        """What members have written down of what they did, the units of their workers, and the epochs as the store has
        them."""
        assert self.acts is not None
        for file in (*sorted(self.acts.iterdir()), *self.work.folder.glob('units')):
            yield from acts_of(file)
        with contextlib.closing(self.opened()) as log:
            for epoch in log.epochs():
                opening, rows = log.opening(epoch), list(log.read(epoch, 0))
                names, is_file = list(opening.names), isinstance(log, SqliteLog)
                told = {'epoch': epoch, 'header': opening.header, 'names': names, 'rows': rows, 'is_file': is_file}
                yield Act(0, '', 'kept', {**told, 'is_cooperative': opening.is_cooperative})

    def judge_acts(self, occur: Collection[str], broken: Collection[str] = ()) -> None:
        """Judges what was written down: acts must be judged by these premises, and each that is broken on purpose must
        refuse one."""
        verdict = judge(self.written())
        print(f'{verdict}; load {os.getloadavg()[0]:.1f}')
        first = {refusal.premise: refusal for refusal in reversed(verdict.refused)}
        for refusal in first.values():
            print(f'refused, for the first time by this premise: {refusal} ({PREMISES[refusal.premise]})')
        for premise in broken:
            self.count(premise in first, f'no act was refused by {premise}')
        if not broken:
            self.count(not first, f'{len(verdict.refused)} acts were refused, by {", ".join(sorted(first))}')
            never = sorted(set(verdict.never()) & set(occur))
            self.count(not never, f'no act was judged by {", ".join(never)}')

    def judge_log(self, program: Path | None) -> None:
        log = self.opened()
        self.judge_moves(log)
        for epoch in log.epochs():
            trace = '\n'.join([log.opening(epoch).header, *log.read(epoch, 0), '']).encode()
            self.judge_trace(trace, f'the log of epoch {epoch}')
            if program is not None:
                annotated = subprocess.run(
                    [program, 'annotate'], input=trace, stdout=subprocess.PIPE, timeout=PATIENCE, check=False
                )
                self.count(annotated.returncode == 0, f'`bully annotate` ends with status {annotated.returncode}')
                self.judge_trace(
                    annotated.stdout, f'the same with everything said, {annotated.stdout.count(10) - 1} rows'
                )
        log.close()

    def judge_moves(self, log: Log) -> None:
        """No partition moved at a change of the epoch that needn't."""
        before: list[str] = []
        for epoch in log.epochs():
            first, last = owners_by_name(log, epoch)
            stayed, could = kept(before, first), most_kept(before, first)
            self.count(stayed == could, f'epoch {epoch}: {stayed} partitions stayed, and {could} could')
            if before:
                change = f'from epoch {epoch - 1} to {epoch}, {len(before)} to {len(first)} partitions'
                print(f'{change}: {stayed} stayed, as many as could')
            before = last

    def judge_trace(self, trace: bytes, what: str) -> None:
        verdict = check(trace)
        self.count(verdict.is_lawful, f'{what}: {verdict}')
        print(f'{what}: {verdict}')

    def judge_work(self) -> None:
        """No overlap, and no token fell; one token is of one node."""
        self.count(self.work.close() == 0, 'the recorder failed')
        overlaps, old, excused = self.work.faults('overlap'), self.work.faults('old'), self.work.excused()
        self.count(not overlaps, f'overlaps: {overlaps[:5]}')
        self.count(not old, f'units by old tokens: {old[:5]}')
        units = 0
        for partition in range(self.work.partitions):
            done = self.work.units(partition)
            tokens = [int(token) for token, _ in done]
            units += len(done)
            is_excused = any(row.split()[1] == str(partition) for row in excused)
            self.count(tokens == sorted(tokens) or is_excused, f'a token fell on partition {partition}')
            is_single = len(set(tokens)) == len({(token, node) for token, node in done})
            self.count(is_single, f'partition {partition}: two nodes by one token')
        apart = f', and {len(excused)} of both while a premise was broken' if excused else ''
        print(f'{units} units of work, {len(old)} refused by their tokens, {len(overlaps)} overlaps{apart}')

    def tell(self) -> None:
        print(f'the ttl is {self.ttl:g} s')
        for what, times in self.times.items():
            rows = [each for _, each in times]
            told = shown_seconds('to become stable in', [seconds for seconds, _ in times])
            print(f'{what}: {len(times)} times{told}, {statistics.median(rows):.0f} rows, at most {max(rows)}')

    def close(self) -> None:
        """Whatever is left is ended. A watchdog may yet release the lease of its member."""
        guards = [guard for member in self.members.values() for guard in guards_of(member.pid)]
        for member in self.members.values():
            member.kill()
            member.wait(PATIENCE)
        wait_until(lambda: not any(map(is_running, guards)))
        self.view.close()


def live_in(shown: GroupView) -> set[str]:
    """The names of the live nodes."""
    return {node.name for node in shown.nodes if node.is_live}


def shares_over(seconds: float, processes: dict[str, list[int]]) -> list[float]:
    """The percentage of a processor that each member and its processes take over so many seconds."""

    def taken() -> list[float]:
        return [sum(map(processor_seconds, each)) for each in processes.values()]

    before, start = taken(), time.monotonic()
    time.sleep(seconds)
    length = time.monotonic() - start
    return [100 * (after - earlier) / length for earlier, after in zip(before, taken())]
