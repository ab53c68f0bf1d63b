"""The state of a group as its log shows it, for people and for programs."""
from __future__ import annotations

import collections
import enum
import threading
import time
from collections.abc import Iterable, Iterator, Mapping, Sequence
from contextlib import suppress
from dataclasses import dataclass
from itertools import zip_longest
from typing import Any, Deque, NamedTuple

from .clocks import seconds_of_boot
from .core import Promise, Session
from .display import shown_name, time_text
from .epochs import COOPERATIVE, EAGER, TTL, Token
from .observer import Observer, Owner, Table
from .shared_log import Holder, Log, LogError, Snapshot
from .values import Status

LAST_ROWS = 20
APPEND_MAX = 11  # rows for each node, that are appended at once at most
ADMITTED = 0.01  # of a ttl: after that an observer admits a session that it saw for the first time
ADMITTED_MAX = 0.1  # seconds for which a view waits for that, at most


class ChangeWaits:
    """For which nodes a change waits, and since when. Threads may share it."""

    def __init__(self) -> None:
        # (where the log ended, and since when)
        self._waits: tuple[Promise, dict[tuple[str, Session], float]] = (Promise(), {})

    def see(self, end: Promise, late: Mapping[str, Holder]) -> dict[str, float]:
        """Takes in for whom a change waits after a snapshot (`observer.waits_for`), where the log ends there. Returns
        for how many seconds it has waited for each."""
        (last, waits), now = self._waits, seconds_of_boot()
        before = waits if end == last else {}
        since = {each: before.get(each, now) for each in sessions_of(late)}
        self._waits = end, since
        return {name: now - moment for (name, _), moment in since.items()}

    def seen(self, end: Promise, late: Mapping[str, Holder]) -> dict[str, float]:
        """The same as last time, if the log still ends there: of these, for which a change may still wait."""
        (last, waits), now, there = self._waits, seconds_of_boot(), set(sessions_of(late))
        return {each[0]: now - moment for each, moment in waits.items() if end == last and each in there}


def sessions_of(holders: Mapping[str, Holder]) -> list[tuple[str, Session]]:
    """The names and sessions of holders of leases."""
    return [(name, holder.session) for name, holder in holders.items()]


class Doing(enum.Enum):
    """What becomes of a partition: somebody may work on it, and goes on; somebody may, and stops because it moves to
    another node, or because all work stops for the change; or nobody may."""

    WORKING, MOVING, STOPPING, WAITING = 'working', 'moving', 'stopping', 'waiting'


@dataclass(frozen=True)
class PartitionView:
    """The state of a partition: what becomes of it; which node may work on it, if any may; by which token at most, as
    far as that is known; and which node owns it after the change that is under way, if that is known."""

    doing: Doing
    owner: str | None = None
    token: Token | None = None
    coming: str | None = None


class LastRow(NamedTuple):
    """One of the last rows: its number in the trace, its text, and when it was appended, in milliseconds since 1970, if
    that is known."""

    number: int
    text: str
    time: int | None = None


@dataclass(frozen=True)
class NodeView:
    """The state of a node, and its partitions."""

    node: int
    name: str
    status: Status
    coordinator: str | None
    is_live: bool
    is_drained: bool
    is_failing: bool  # whether its worker fails, and it owns something or gave up
    gave_up: bool  # whether it gave up what it owned for that reason
    partitions: tuple[int, ...]
    killed: int  # how often its watchdog killed its work, because the lease wasn't sure any more
    killed_last: int | None  # when last, in milliseconds since 1970

    @property
    def live_text(self) -> str:
        """Whether it is live, drained, or gave up, whether its worker fails, and whether that was killed, for
        people."""
        drained = ', drained' * self.is_drained + ', gave up' * self.gave_up
        fails = ', its worker fails' * self.is_failing
        times = 'once' if self.killed == 1 else f'{self.killed} times, last'
        killed = f', its worker was killed {times} at {time_text(self.killed_last)}' if self.killed else ''
        return ('yes' if self.is_live else 'no') + drained + fails + killed

    def document(self) -> dict[str, Any]:
        """The same for JSON."""
        return {
            'node': self.node, 'name': self.name, 'status': str(self.status), 'coordinator': self.coordinator,
            'live': self.is_live, 'drained': self.is_drained, 'failing': self.is_failing,
            'gave_up': self.gave_up, 'partitions': list(self.partitions), 'killed': self.killed,
            'killed_last': time_text(self.killed_last) or None,
        }  # fmt: skip


@dataclass(frozen=True)
class GroupView:
    """The state of a group after so many rows of an epoch."""

    epoch: int
    rows: int
    events: int
    token: Token | None
    coordinator: str | None  # of the nodes that are Normal
    is_cooperative: bool  # whether a change stops only the work that moves
    partitions: tuple[PartitionView, ...]
    moves: int  # how many partitions get another owner by the change under way, as far as that is known
    nodes: tuple[NodeView, ...]
    is_stable: bool  # whether there is nothing to do but work, among the nodes that are admitted
    is_paused: bool
    is_frozen: bool  # whether it is paused, and no change is under way that is completed first
    waits: dict[str, float]  # the nodes for which a change waits, with the seconds of each
    stops: dict[str, tuple[int, ...]]  # on which partitions each of these must stop, as far as that is known
    last: tuple[LastRow, ...]

    @property
    def owners(self) -> tuple[str | None, ...]:
        """Who may work on each partition; None while nobody may."""
        return tuple(partition.owner for partition in self.partitions)

    @property
    def mode(self) -> str:
        """What its changes stop, in a word."""
        return COOPERATIVE if self.is_cooperative else EAGER

    @property
    def is_changing(self) -> bool:
        """Whether a change is under way, or is due, and somebody is there to make it."""
        return not self.is_stable and not self.is_frozen and any(node.is_live for node in self.nodes)

    @property
    def is_well(self) -> bool:
        """Whether the group is stable, each partition may be worked on, and no worker fails."""
        return self.is_stable and None not in self.owners and not any(node.is_failing for node in self.nodes)

    @property
    def more_text(self) -> str:
        """Whether the group is paused, for which nodes a change waits, and how many partitions move, for people."""
        paused = '; paused: members that work continue, and nobody rebalances' if self.is_frozen else ''
        first = '; paused once the change under way is complete' if self.is_paused and not self.is_frozen else ''
        late, moved = ', '.join(map(self._late_text, self.waits)), f'{self.moves} of {len(self.partitions)} partitions'
        what = 'not stopped yet' if self.is_cooperative else 'not idle yet'
        return paused + first + (f'; {moved} move' if self.moves else '') + (f'; {what}: {late}' if late else '')

    def _late_text(self, name: str) -> str:
        """For how long a change has waited for that node, and in a cooperative group on which partitions it stops."""
        seconds, stops = f'for {self.waits[name]:.1f} s', ' '.join(map(str, self.stops.get(name, ())))
        return (
            f'{shown_name(name)} on {stops} {seconds}'
            if self.is_cooperative and stops
            else f'{shown_name(name)} {seconds}'
        )

    def document(self) -> dict[str, Any]:
        """The same for JSON."""
        return {
            'epoch': self.epoch, 'rows': self.rows, 'events': self.events, 'token': self.token,
            'coordinator': self.coordinator, 'mode': self.mode, 'owners': list(self.owners),
            'states': [each.doing.value for each in self.partitions],
            'tokens': [each.token for each in self.partitions], 'coming': [each.coming for each in self.partitions],
            'moves': self.moves, 'nodes': [node.document() for node in self.nodes], 'stable': self.is_stable,
            'paused': self.is_paused, 'frozen': self.is_frozen,
            'behind': {name: round(seconds, 3) for name, seconds in self.waits.items()},
            'stops': {name: list(partitions) for name, partitions in self.stops.items()},
            'last': [{'row': row.number, 'text': row.text, 'time': time_text(row.time) or None} for row in self.last],
        }  # fmt: skip


def stops_of(waits: Iterable[str], partitions: Sequence[PartitionView]) -> dict[str, tuple[int, ...]]:
    """On which partitions each of these nodes must stop."""
    stops: dict[str | None, list[int]] = {name: [] for name in waits}
    for partition, each in enumerate(partitions):
        if each.doing in (Doing.MOVING, Doing.STOPPING) and each.owner in stops:
            stops[each.owner].append(partition)
    return {name: tuple(stops[name]) for name in waits}


class LogView:
    """Reads a log, and shows the state of its group in the current epoch. Threads may share it."""

    def __init__(self, log: Log, waits: ChangeWaits | None = None, ttl: float | None = None) -> None:
        """A member in this process may report for which nodes a change waits, because it reads a snapshot at each
        change. The ttl is that of the members, if the log has none.

        Raises what the log raises."""
        self._log, self._ttl = log, ttl or TTL
        self._reported, self._waits = waits or ChangeWaits(), ChangeWaits()
        self._last: Deque[LastRow] = collections.deque(maxlen=LAST_ROWS)
        self._lock = threading.Lock()
        self._enter()

    def show(self) -> GroupView:
        """Reads the new rows, and returns the group. It reads again if the member waits for a node, and this view
        hasn't seen for long enough the session for which it does. Raises NotLearned, OutOfMemory, and what the log
        raises."""
        with self._lock:
            shown = self._shown(self._read())
            if shown.is_cooperative and not all(map(shown.stops.get, shown.waits)):
                time.sleep(min(ADMITTED * self._observer_ttl, ADMITTED_MAX))
                shown = self._shown(self._read())
            return shown

    def close(self) -> None:
        with self._lock:
            self._observer.close()
            self._log.close()

    def _enter(self) -> None:
        """Shows the current epoch from now on."""
        opening = self._log.opening()
        self._observer_ttl = opening.ttl or self._ttl
        self._opening, self._observer = opening, Observer(opening, self._observer_ttl)
        self._last.clear()

    def _read(self) -> Snapshot:
        """Reads up to the end of the current epoch."""
        while True:
            found = self._log.snapshot(self._opening.epoch, self._observer.rows)
            if found.epoch == self._opening.epoch:
                break
            before = self._observer
            self._enter()
            before.close()
        self._observer.see(found)
        last = found.rows[-LAST_ROWS:]
        if last:
            self._last.extend(self._timed(self._observer.rows - len(last), last))
        return found

    def _timed(self, offset: int, rows: Sequence[str]) -> Iterator[LastRow]:
        """The rows from that offset on, which were just read, with their times, if the log says these."""
        times: Mapping[int, int | None] = {}
        with suppress(LogError):
            times = self._log.times(self._opening.epoch, max(0, offset - APPEND_MAX * self._observer.nodes))
        for each, row in enumerate(rows, offset):
            append = max((begin for begin in times if begin <= each), default=None)
            yield LastRow(each + 2, row, None if append is None else times[append])

    def _shown(self, found: Snapshot) -> GroupView:
        observer, opening = self._observer, self._opening
        table, is_frozen = observer.last_table or (), found.is_frozen(observer.end)
        nodes = tuple(self._node(node, table, found) for node in range(1, observer.nodes + 1))
        coordinator = next((node.coordinator for node in nodes if node.status is Status.NORMAL), None)
        waits, is_stable = self._late(found), observer.is_stable()
        changes = not is_stable and not is_frozen
        coming = observer.coming() if changes else None
        partitions = self._partitions(found, coming, changes)
        return GroupView(
            opening.epoch, observer.rows, observer.events, self._token(observer.token), coordinator,
            opening.is_cooperative, partitions, self._moves(coming), nodes, is_stable and not waits,
            found.maintenance.is_paused, is_frozen, waits, stops_of(waits, partitions), tuple(self._last),
        )  # fmt: skip

    def _late(self, found: Snapshot) -> dict[str, float]:
        """For whom a change waits, with the seconds of each: also those that the member reports."""
        end, late = self._observer.end, self._observer.waits_for(found)
        maybe = {name: holder for name, holder in found.holders.items() if name in late or holder.promise != end}
        return {**self._waits.see(end, late), **({} if found.is_frozen(end) else self._reported.seen(end, maybe))}

    def _partitions(self, found: Snapshot, coming: Table | None, changes: bool) -> tuple[PartitionView, ...]:
        """The partitions, while a change is under way or not."""
        after = map(self._name, coming or ())
        return tuple(
            self._partition(owner, name, changes) for owner, name in zip_longest(self._observer.owners(found), after)
        )

    def _partition(self, owner: Owner | None, coming: str | None, changes: bool) -> PartitionView:
        """A partition that this node owns after the change, if it is known who does."""
        if owner is None:
            return PartitionView(Doing.WAITING, coming=coming)
        goes_on = not changes or coming == owner.name
        doing = Doing.WORKING if goes_on else Doing.STOPPING if coming is None else Doing.MOVING
        return PartitionView(doing, owner.name, self._token(owner.token), coming)

    def _moves(self, coming: Table | None) -> int:
        """How many partitions have another owner in the coming table than before."""
        before = self._observer.last_table or self._opening.table
        return sum(owner != new for owner, new in zip(before, coming or ()))

    def _token(self, events: int | None) -> Token | None:
        return None if events is None else Token.of(self._opening.epoch, events)

    def _node(self, node: int, table: Sequence[int], found: Snapshot) -> NodeView:
        """The state of the node, and its partitions by the last table, which applies to each node that is Normal."""
        state = self._observer.state(node)
        is_normal = state.status is Status.NORMAL
        partitions = tuple(partition for partition, owner in enumerate(table) if owner == node and is_normal)
        coordinator, name = None if state.coordinator is None else self._name(state.coordinator), self._name(node)
        is_live, is_drained = name in found.holders, name in found.maintenance.drained
        gave_up = found.failing.get(name, False) and not is_live
        fails = gave_up or name in found.failing and bool(partitions)
        note, holder = found.maintenance.killed.get(name), found.holders.get(name)
        is_its = note is not None and note.is_of(holder and holder.session)
        killed, last = note[1:] if note is not None and is_its else (0, None)
        return NodeView(
            node, name, state.status, coordinator, is_live, is_drained, fails, gave_up, partitions, killed, last
        )  # fmt: skip

    def _name(self, node: int) -> str:
        return self._opening.names[node - 1]
