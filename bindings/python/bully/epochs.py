"""Epochs: a log has room for 1,000,000 rows, so a group's history is one log after the other.

Each epoch has a log of its own, and starts with an opening. `docs/MEMBERS.md` says when an epoch ends. Tokens rise over
all epochs.
"""
from __future__ import annotations

import dataclasses
import json
from collections.abc import Sequence
from dataclasses import dataclass

from .group import setup_of
from .settings import Settings
from .values import EVENTS_MAX

FIRST, LATEST = 1, 4_000_000_000  # the lowest and the highest number of a log's first epoch
REBALANCE = 11  # rows for each node that a rebalance has at most
EAGER, COOPERATIVE = 'eager', 'cooperative'  # what a change stops: all work, or only the work that moves
TTL = 5.0  # seconds, unless the log or a member has another one
LEAST = 2 * REBALANCE  # rows for each node for which an epoch must have room: two rebalances


class Token(int):
    """The token of a table: one number, EPOCH * 10,000,000 + EVENTS. EVENTS counts the events of the epoch up to the
    table's plan, including it. A later table has a higher token, also in a later epoch."""

    SPAN = 10_000_000  # more than an epoch has events

    @staticmethod
    def of(epoch: int, events: int) -> Token:
        return Token(epoch * Token.SPAN + events)

    @property
    def epoch(self) -> int:
        return self // Token.SPAN

    @property
    def events(self) -> int:
        return self % Token.SPAN


def room_of(nodes: int, limit: int) -> int:
    """How many rows an epoch of so many nodes may have, if this limit is asked for."""
    return min(max(limit, LEAST * nodes), EVENTS_MAX)


@dataclass(frozen=True)
class Opening:
    """The start of an epoch: its number; its header and the names of its nodes; how many rows it may have; the last
    table of the epoch before, by the numbers of this epoch, with 0 for an owner that isn't in it; the ttl, if the log
    has one; and whether the group is cooperative, so that a change stops only the work that moves."""

    epoch: int
    header: str
    names: tuple[str, ...]
    limit: int
    table: tuple[int, ...] = ()
    ttl: float | None = None
    is_cooperative: bool = False

    @staticmethod
    def first(
        header: str, names: Sequence[str] = (), limit: int = EVENTS_MAX, epoch: int = FIRST, ttl: float | None = None,
        is_cooperative: bool = False,
    ) -> Opening:  # fmt: skip
        """The opening of the first epoch, with this number. Nodes without names are called by their numbers."""
        nodes = setup_of(header).nodes
        called = tuple(names) or tuple(map(str, range(1, nodes + 1)))
        return Opening(epoch, header, called, room_of(nodes, limit), ttl=ttl, is_cooperative=is_cooperative)

    @staticmethod
    def parse(text: str) -> Opening:
        """The opening in this text. Raises ValueError, KeyError, TypeError or BullyError if it isn't one."""
        document = json.loads(text)
        names, table, limit = tuple(document['names']), tuple(document['table']), int(document['limit'])
        ttl = float(document['ttl']) if 'ttl' in document else None
        is_cooperative = document.get('is_cooperative', False)
        if not isinstance(is_cooperative, bool):
            raise ValueError(f'{is_cooperative!r} does not say whether the group is cooperative')
        opening = Opening(int(document['epoch']), str(document['header']), names, limit, table, ttl, is_cooperative)
        setup = setup_of(opening.header)
        setup.header()  # raises an exception if there can be no such group
        if setup.nodes != len(names) or len(table) not in (0, setup.partitions):
            raise ValueError(f'{opening.header} has {len(names)} names, and a table of {len(table)} partitions')
        are_owners = set(table) <= set(range(setup.nodes + 1))
        if not all(isinstance(name, str) for name in names) or not are_owners or limit != room_of(setup.nodes, limit):
            raise ValueError(f'a name of {names}, an owner of {table} or the limit {limit} is not valid')
        return opening

    def text(self) -> str:
        """The opening as JSON, for a store."""
        document = dataclasses.asdict(self)
        return json.dumps({key: value for key, value in document.items() if value is not None}, ensure_ascii=False)

    @property
    def settings(self) -> Settings:
        """The setup of the epoch's group, and the names of its nodes."""
        return Settings(setup_of(self.header), self.names)

    @property
    def mode(self) -> str:
        return COOPERATIVE if self.is_cooperative else EAGER

    @property
    def bare(self) -> Opening:
        """The same without a table."""
        return dataclasses.replace(self, table=())

    def is_of(self, settings: Settings) -> bool:
        """Whether the group has these settings in the epoch."""
        return (self.header, self.names) == (settings.setup.header(), settings.names)

    def requested(self, settings: Settings) -> Opening:
        """The opening of the next epoch with other settings. Its table isn't known before this epoch ends."""
        limit = room_of(settings.setup.nodes, self.limit)
        after = dataclasses.replace(self.bare, epoch=self.epoch + 1, limit=limit)
        return dataclasses.replace(after, header=settings.setup.header(), names=settings.names)

    def after(self, requested: Opening | None) -> Opening:
        """The opening of the next epoch without its table: with the requested settings, or else with those of this
        epoch."""
        return (requested or dataclasses.replace(self, epoch=self.epoch + 1)).bare

    def next(self, requested: Opening | None, table: Sequence[int]) -> Opening:
        """The opening of the next epoch: with the requested settings, or else with those of this epoch; and with this
        last table."""
        after = self.after(requested)
        there = {name: number for number, name in enumerate(after.names, 1)}
        numbers = {number: there.get(name, 0) for number, name in enumerate(self.names, 1)}
        count = setup_of(after.header).partitions
        owners = [numbers.get(owner, 0) for owner in table[:count]]
        carried = tuple(owners + [0] * (count - len(owners))) if any(owners) else ()
        return dataclasses.replace(after, table=carried)
