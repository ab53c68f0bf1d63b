"""Steps of a log that many tests take, and who takes them."""
from __future__ import annotations

from bully.clocks import SECOND
from bully.core import Promise, Session
from bully.epochs import Opening
from bully.shared_log import Holder, Log, Precondition

HEADER = 'bully,1,3,6'
OPENING = Opening.first(HEADER)

LONG = 1000 * SECOND
A, B, C = Session(2**64 - 1, 1), Session(7, 1), Session(7, 2)
EMPTY = Promise(1, 0)


class Clock:
    """A clock that stays as it is until it is set."""

    def __init__(self) -> None:
        self.now = 100 * SECOND

    def __call__(self) -> int:
        return self.now


def live(log: Log) -> dict[str, Holder]:
    """Who holds a lease, by name."""
    return dict(log.snapshot(1, 0).holders)


def plain_snapshot(log: Log, epoch: int, offset: int, promise_of: str | None = None) -> object:
    """What a snapshot finds, as plain values: with all promises, or with that of this holder alone."""
    found = log.snapshot(epoch, offset, promise_of)
    assert found.has_promises == (promise_of is None or found.maintenance.is_paused)
    return found.epoch, list(found.rows), dict(found.holders), found.requested, found.maintenance


def end_of(log: Log) -> Promise:
    """The end of the log."""
    epoch = log.epochs()[-1]
    return Promise(epoch, len(log.read(epoch, 0)))


def be_idle(log: Log, *holders: tuple[str, Session], here: Promise | None = None) -> Promise:
    """These promise the end of the log, or that offset."""
    there = here or end_of(log)
    for name, session in holders:
        assert log.promise(name, session, there), (name, session, there)
    return there


def known_to(log: Log, *affected: str, **holders: Holder) -> Precondition:
    """What a change that affects these names compares, by a snapshot that finds all but these holders."""
    found = log.snapshot(*where(end_of(log)))
    return Precondition(frozenset(affected), {**found.holders, **holders}, found.revision)


def where(here: Promise) -> tuple[int, int]:
    return here.epoch, here.offset


def add(log: Log, rows: list[str], name: str = 'a', session: Session = A) -> Promise:
    """Appends the rows, while that node alone is live. The end of the log."""
    here = be_idle(log, (name, session))
    assert log.append(here.epoch, here.offset, rows), here
    return Promise(here.epoch, here.offset + len(rows))
