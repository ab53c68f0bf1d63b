"""Calls of a log by chance, by which one store is compared with another."""
from __future__ import annotations

import random
from collections.abc import Callable
from typing import NamedTuple

from bully.core import Promise, Session
from bully.epochs import Opening
from bully.maintenance import Maintenance
from bully.memory import MemoryLog
from bully.shared_log import Log, LogError, Precondition, found_in
from .steps import LONG, plain_snapshot

WRITER = 'w'  # a member that is there for one change


def answer_of(ask: Callable[[Log], object], log: Log) -> object:
    """What the log answers; or the kind of its error."""
    try:
        return ask(log)
    except LogError as error:
        return type(error)


class Meant(NamedTuple):
    """What calls of a log are made with: for whom, and where; what is kept, and whom a change affects; which rows,
    settings, opening, maintenance and note."""

    name: str
    session: Session
    here: Promise
    kept: tuple[int, ...]
    affected: frozenset[str]
    is_odd: bool  # `here` may be another offset than the end of the log
    rows: list[str]
    requested: Opening
    opening: Opening
    maintenance: Maintenance
    known: Maintenance | None
    gave_up: bool | None
    other: str
    its: Session


def calls_with(meant: Meant) -> list[tuple[int, str, Callable[[Log], object]]]:
    """Each call of a log: how often it is made compared with the others, its name, and the call."""
    name, session, here, kept, affected, _, rows, requested, opening, maintenance, known, gave_up, other, its = meant
    epoch, offset, many, some = here.epoch, here.offset, 8, 4
    alone = name if len(kept) % 2 else None  # whose promise a snapshot has
    return [
        (some, f'acquire {name} {session} {here}', lambda log: log.acquire(name, session, here, LONG)),
        (2, f'renew {name} {session}', lambda log: log.renew(name, session, LONG)),
        (some, f'release {name} {session}', lambda log: log.release(name, session)),
        (some, f'promise {name} {session} {here} {kept}', lambda log: log.promise(name, session, here, kept)),
        (many, f'append {here} {rows}', lambda log: log.append(epoch, offset, rows)),
        (some, f'roll_over {here} {opening}', lambda log: log.roll_over(epoch, offset, opening)),
        (some, f'append {here} {rows} {affected}', lambda log: by_member(
            log, here, lambda seen: log.append(epoch, offset, rows, seen._replace(affected=affected))
        )),
        (some, f'roll_over {here} {opening} {affected}', lambda log: by_member(
            log, here, lambda seen: log.roll_over(epoch, offset, opening, seen._replace(affected=affected))
        )),
        (some, f'snapshot {here} {alone}', lambda log: (
            plain_snapshot(log, epoch, offset, alone), dict(log.snapshot(0, 0, alone).failing)
        )),
        (1, f'read {here}', lambda log: list(log.read(epoch, offset))),
        (1, f'ask {requested} {epoch}', lambda log: log.ask(requested, epoch)),
        (1, f'cancel {epoch}', lambda log: log.cancel(epoch)),
        (2, f'set_maintenance {maintenance} {known}', lambda log: log.set_maintenance(maintenance, known)),
        (some, f'note {name} {gave_up}', lambda log: log.note(name, gave_up)),
        (some, f'give_up {name} {other} {its}', lambda log: log.give_up(name, other, its)),
        (1, f'times {epoch}', lambda log: sorted(log.times(epoch))), (1, 'epochs', lambda log: log.epochs()),
        (1, f'opening {epoch}', lambda log: log.opening(epoch)), (1, 'opening', lambda log: log.opening()),
        (1, f'prune {epoch - 1}', lambda log: log.prune(epoch - 1)),
    ]  # fmt: skip


def by_member(log: Log, here: Promise, change: Callable[[Precondition], bool]) -> bool:
    """A member that is there for this alone makes a change. Whether it was done."""
    session = Session(3, 1)
    log.acquire(WRITER, session, here, LONG)
    found = found_in(log)
    done = change(Precondition(frozenset(), found.holders, found.revision))
    log.release(WRITER, session)
    return done


class Calls:
    """Random calls of a log: mostly those that a log in memory would do."""

    def __init__(self, choice: random.Random, memory: MemoryLog) -> None:
        self.choice, self.memory = choice, memory
        self.done = dict.fromkeys(('acquire', 'promise', 'append', 'roll_over', 'ask', 'set_maintenance', 'give_up'), 0)

    def choose(self) -> tuple[str, Callable[[Log], object]]:
        """The name of a call, and the call."""
        name, ask = self._chosen()
        kind = name.split()[0]

        def asked(log: Log) -> object:
            told = ask(log)
            if log is self.memory and kind in self.done:
                self.done[kind] += bool(told)
            return told

        return name, asked

    def _chosen(self) -> tuple[str, Callable[[Log], object]]:
        meant = self._meant()
        if self.choice.random() < 0.3 and not meant.is_odd:  # all are idle up to the end of the log
            idle = dict(self.memory.holders)
            return 'promise of all', lambda log: [
                log.promise(each, idle[each].session, meant.here) for each in sorted(idle)
            ]
        asked = calls_with(meant)
        _, told, ask = self.choice.choices(asked, [weight for weight, _, _ in asked])[0]
        return told, ask

    def _meant(self) -> Meant:
        choice, memory = self.choice, self.memory
        name, session = choice.choice('abc'), Session(choice.randint(1, 2), choice.randint(1, 2))
        held = memory.holders.get(name)
        if held is not None and choice.random() < 0.8:
            session = held.session
        is_odd = choice.random() < 0.2
        epoch = max(1, memory.epoch + choice.choice([-1, -1, 0, 1]) * is_odd)
        here = Promise(epoch, max(0, len(memory.rows) + choice.choice([-2, -1, 0, 1]) * is_odd))
        rows = [f'{name},{number}' for number in range(choice.randint(1, 4))]
        names, limit = choice.choice([('a', 'b', 'c'), ('c', 'd', 'e')]), choice.choice([66, 500])
        requested = Opening(epoch + 1, 'bully,1,3,6', names, limit)
        opening = memory.opening().next(
            choice.choice([memory.requested, memory.requested, None, requested]), (1, 2, 3, 1, 2, 0)
        )
        maintenance, before = (
            Maintenance(frozenset(choice.sample('abc', 1)), choice.choice([None, {'a': session}])) for _ in range(2)
        )
        known = choice.choice([memory.maintenance, memory.maintenance, before, None])
        gave_up, other = choice.choice([None, None, None, None, False, True]), choice.choice([*memory.holders, name])
        its = memory.holders[other].session if other in memory.holders else session
        kept = tuple(sorted(choice.sample(range(4), choice.choice([0, 0, 1, 2, 3]))))
        affected = frozenset(choice.sample(['a', 'b', 'c', WRITER], choice.randrange(5)))
        leases = name, session, here, kept, affected
        return Meant(*leases, is_odd, rows, requested, opening, maintenance, known, gave_up, other, its)
