"""The same groups over the log of `bully.memory`, and what all logs of the package have in common here.

What is judged is read from the log as it is, apart from what members ask.
"""
from __future__ import annotations

from collections.abc import Callable, Sequence
from contextlib import suppress
from dataclasses import replace
from functools import partial

from bully import operations, shared_log
from bully.core import Promise
from bully.epochs import FIRST, Opening
from bully.maintenance import Maintenance
from bully.memory import MemoryLog
from bully.settings import Settings
from bully.shared_log import Precondition
from .driven import Member, Wrong
from .simulated_store import Epoch, Lease, LogStore, StoreMaker
from .stabilizing import NEVER, Mode, Simulation
from .trouble import Trouble


TROUBLES_OF_MAINTENANCE = [
    'a node is drained', 'a drained node comes back', 'a group is paused',
    'members work on in a pause beside one that is gone', 'a change is finished in a pause',
]  # fmt: skip
TROUBLES_OF_KEPT_WORK = ['a node is drained while a promise keeps work', 'a group is paused while a promise keeps work']


class MemoryStore(LogStore):
    """What is judged of a log in memory."""

    log_type: type[MemoryLog] = MemoryLog
    log: MemoryLog

    def __init__(self, opening: Opening, clock: Callable[[], int]) -> None:
        self.log = self.log_type(opening, clock)
        self._epochs: list[Epoch] = []

    @property
    def epochs(self) -> list[Epoch]:
        while len(self._epochs) < self.log.epoch:
            number = len(self._epochs) + FIRST
            self._epochs.append(Epoch(self.log.opening(number), self.log._rows[number]))
        return self._epochs

    def held(self) -> dict[str, Lease]:
        there = self.log.holders
        return {name: Lease(*holder, self.log.leases[name].until) for name, holder in there.items()}

    @property
    def maintenance(self) -> Maintenance:
        return self.log.maintenance

    def requested_settings(self) -> Settings | None:
        return None if self.log.requested is None else self.log.requested.settings


class CarelessLog(MemoryLog):
    """It compares of an append only where the log ends, and that somebody holds a lease."""

    def append(self, epoch: int, offset: int, rows: Sequence[str], known: Precondition | None = None) -> bool:
        return super().append(epoch, offset, rows, Precondition(frozenset(), {}))


class CarelessStore(MemoryStore):
    log_type = CarelessLog


class MemoryMember(Member):
    """A member whose log is in memory."""

    def opened(self) -> shared_log.Log:
        assert isinstance(self.simulation.store, MemoryStore)
        return self.simulation.store.log


class OverMemory(Simulation):
    """A group over a log in memory, or another one of the package."""

    member: type[Member] = MemoryMember

    def __init__(
        self, seed: int, trouble: type[Trouble] = Trouble, mode: Mode = Mode(), store: StoreMaker = MemoryStore
    ) -> None:
        super().__init__(seed, store, trouble, mode)
        self.end = Promise(FIRST, 0)  # of the log, after its last change
        self.last_set = Maintenance()  # the maintenance that was set last

    def changed(self, what: str, done: bool) -> bool:
        """In a pause a group is rebalanced only if a member that was there before has promised to be idle, and so can't
        go on; or if that was asked for before, and comes late."""
        sessions = self.store.maintenance.sessions if done else None
        if (
            sessions is not None
            and self.end not in self.asked
            and not any((session, self.end) in self.promised for session in sessions.values())
        ):
            raise Wrong(f'{what} in a pause')
        self.happened['a change is finished in a pause'] += sessions is not None
        if done:
            self.end = Promise(self.store.epoch.number, len(self.store.epoch.rows))
        return super().changed(what, done)

    def stops(self, member: Member, stopped: frozenset[int]) -> None:
        """In a pause no member stops work because of others, unless its log is full: in a cooperative group it may work
        on till then."""
        if member.is_frozen and self.now < member.rules.sure_until and not member.is_leaving:
            self.happened['work stops in a pause since the log is full'] += member.expected.is_full
            if not self.is_cooperative or not member.expected.is_full:
                raise Wrong(f'{member} stops work in a pause')
        super().stops(member, stopped)

    # Maintenance.

    def run(self) -> None:
        self.often('a node is drained', self.trouble.drains, self.drain)
        self.often('a drained node is taken back', self.trouble.drains, self.undrain)
        self.often('a group is paused', self.trouble.halts, self.halt)
        super().run()

    def keeps_work(self) -> bool:
        return any(lease.kept for lease in self.store.held().values())

    def drain(self) -> None:
        self.happened['a node is drained while a promise keeps work'] += self.keeps_work()
        with suppress(operations.LastNode):  # nobody would work
            self.last_set = operations.drain(
                self.store.log, self.choice.choice(self.store.epoch.settings.names), takes_last=False
            )
        self.tell_all()

    def undrain(self) -> None:
        drained = sorted(self.store.maintenance.drained & set(self.store.epoch.settings.names))
        if drained:
            self.last_set = operations.undrain(self.store.log, self.choice.choice(drained))
            self.tell_all()

    def halt(self) -> None:
        """The group is paused, and goes on some time later."""
        if not self.store.maintenance.is_paused:
            self.happened['a group is paused while a promise keeps work'] += self.keeps_work()
            self.last_set, self.halted_at = operations.pause(self.store.log), self.now
            self.tell_all()
            rows = self.end
            self.after(self.some(self.choice.choice([0.3, 2.0, 6.0])), lambda: self.go_on(rows))

    def go_on(self, end: Promise) -> None:
        sessions, held = self.store.maintenance.sessions or {}, self.store.held()
        works = any(process.works for process in self.processes())
        is_gone = any(name not in held or held[name].session != session for name, session in sessions.items())
        self.happened['members work on in a pause beside one that is gone'] += works and is_gone and end == self.end
        self.last_set, self.halted_at = operations.resume(self.store.log), NEVER
        self.tell_all()

    def come_back(self, name: str) -> None:
        if name in self.store.maintenance.drained:
            self.after(self.ttl // 4, partial(self.come_back, name))
        elif name in self.store.epoch.settings.names:
            self.happened['a drained node comes back'] += 1
            self.begin_another(name)

    def become_stable(self) -> None:
        """All pauses are over, and some nodes stay drained."""
        self.last_set, self.halted_at = operations.resume(self.store.log), NEVER
        super().become_stable()

    def startable(self) -> Sequence[str]:
        names = self.store.epoch.settings.names
        there = [name for name in names if name not in self.store.maintenance.drained]
        if not there:
            self.last_set = operations.undrain(self.store.log, names[0])
        return there or names[:1]

    def instability(self) -> str | None:
        maintenance = self.store.maintenance
        wanted = replace(self.last_set, leaving=maintenance.leaving)
        if maintenance != wanted or maintenance.drained & set(self.store.held()):
            return f'the maintenance is {maintenance}, and was {self.last_set}; live are {sorted(self.store.held())}'
        return super().instability()
