"""What is judged of a store of a group in simulated time: who holds a lease, its epochs, what snapshots find, and which
settings are requested."""
from __future__ import annotations

from collections.abc import Callable, Mapping
from dataclasses import dataclass
from functools import cached_property
from typing import Protocol

from bully import shared_log
from bully.core import Promise, Session, Until
from bully.driver import WaitForNews
from bully.epochs import Opening
from bully.maintenance import Maintenance
from bully.settings import Settings


@dataclass(frozen=True)
class Lease:
    """The session that holds a lease, what it has promised, which partitions that keeps, and until when it holds the
    lease."""

    session: Session
    promise: Promise
    kept: tuple[int, ...]
    until: int


@dataclass
class Epoch:
    """An epoch: what it began with, and its log without the header."""

    opening: Opening
    rows: list[str]

    @property
    def number(self) -> int:
        return self.opening.epoch

    @cached_property
    def settings(self) -> Settings:
        return self.opening.settings


def table_of(plan: str) -> tuple[int, ...]:
    """The table of a plan's row."""
    return tuple(map(int, plan.split(',')[2].split()))


class Watchable(shared_log.Log, Protocol):
    """A log that says whether a wait is over."""

    def has_news(
        self,
        epoch: int,
        offset: int,
        sessions: Mapping[str, Session],
        wanted: shared_log.Wanted,
        until: Until,
        before: Mapping[str, shared_log.Holder],
    ) -> bool:
        """The same after a snapshot that found these settings and this maintenance, and these holders of leases."""


class LogStore:
    """What is judged of a log of the package, and what whoever resizes a group asks of it, which is answered at
    once."""

    log: Watchable

    @property
    def epochs(self) -> list[Epoch]:
        """All that there were."""
        raise NotImplementedError

    @property
    def epoch(self) -> Epoch:
        """The current one."""
        return self.epochs[-1]

    def held(self) -> dict[str, Lease]:
        """The leases that are held, by the names of their nodes."""
        raise NotImplementedError

    def holds(self, name: str, session: Session) -> bool:
        lease = self.held().get(name)
        return lease is not None and lease.session == session

    def has_news(self, wait: WaitForNews, found: shared_log.Snapshot) -> bool:
        """Whether a wait is over, after this snapshot."""
        return self.log.has_news(wait.epoch, wait.offset, wait.sessions, found.wanted, wait.until, found.holders)

    # The requested settings, the maintenance, and old epochs.

    @property
    def maintenance(self) -> Maintenance:
        raise NotImplementedError

    def requested_settings(self) -> Settings | None:
        raise NotImplementedError

    @property
    def requested(self) -> Settings | None:
        return self.requested_settings()

    @requested.setter
    def requested(self, settings: Settings | None) -> None:
        opening = self.log.opening()
        if settings is None or opening.is_of(settings):
            self.log.cancel(opening.epoch)
        else:
            self.log.ask(opening.requested(settings), opening.epoch)

    def prune(self) -> None:
        self.log.prune(self.epoch.number)


# Makes a store for an epoch that starts with this, with a clock.
StoreMaker = Callable[[Opening, Callable[[], int]], LogStore]
