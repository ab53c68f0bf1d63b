"""Values that the library takes and returns."""
from __future__ import annotations

import enum
from collections.abc import Sequence
from dataclasses import dataclass
from typing import NamedTuple, Union, overload

from .faults import BullyError

__all__ = [
    'EVENTS_MAX', 'NODES_MAX', 'PARTITIONS_MAX', 'WEIGHT_MAX', 'Answer', 'Call', 'CallKind', 'Line', 'Owned', 'Rows',
    'State', 'Status', 'TablePlan', 'Verdict', 'VerdictKind', 'Want',
]  # fmt: skip

NODES_MAX = 1024
PARTITIONS_MAX = 4096
WEIGHT_MAX = 1000
EVENTS_MAX = 1_000_000

Line = Union[str, bytes]


class Rows(Sequence[str]):
    """Rows of a log that came as one text. They are split only when one is read, so a long log is learned faster."""

    def __init__(self, text: str) -> None:
        """The rows of this text, each with its line end."""
        self.text = text
        self._count: int | None = None
        self._cut: list[str] | None = None

    def __len__(self) -> int:
        if self._count is None:
            self._count = self.text.count('\n')
        return self._count

    @overload
    def __getitem__(self, index: int) -> str:
        ...

    @overload
    def __getitem__(self, index: slice) -> list[str]:
        ...

    def __getitem__(self, index: int | slice) -> str | list[str]:
        if self._cut is None:
            self._cut = self.text.split('\n')[:-1]
        return self._cut[index]

    def after(self, count: int) -> Rows:
        """The rows after the first `count`."""
        rest = Rows(self.text.split('\n', count)[-1] if count else self.text)
        rest._count = max(len(self) - count, 0)
        return rest

    def __repr__(self) -> str:
        return f'<{len(self)} rows>'


class Named(enum.IntEnum):
    """Numbers of the library, shown by their names as in traces: `normal`, `are-you-up`."""

    def __str__(self) -> str:
        return self.name.lower().replace('_', '-')

    def __format__(self, layout: str) -> str:
        return format(str(self), layout)


class Status(Named):
    """The status of a node."""

    DOWN, ELECTION, REORGANIZATION, NORMAL = range(4)


class Want(Named):
    """What a node wants to do next."""

    NOTHING, START, MOVE, PLAN, AWAIT = range(5)


class CallKind(Named):
    """The five calls."""

    ARE_YOU_UP, ARE_YOU_NORMAL, HALT, NEW_COORDINATOR, READY = range(1, 6)


class Answer(Named):
    """The result of a call that has returned."""

    DONE, YES, NO, FAILED, DISCARDED = range(5)


class VerdictKind(Named):
    """The kind of a verdict on a trace."""

    LAWFUL, REFUSED, DIFFERS = range(3)


@dataclass(frozen=True)
class Verdict:
    """The verdict on a trace. For a lawful trace `number` is the count of events; otherwise it is the row, from 1, that
    is refused or differs, and `cause` is the exception that names why it is refused. As text it is what `bully check`
    prints."""

    kind: VerdictKind
    number: int
    cause: type[BullyError] | None = None

    @property
    def is_lawful(self) -> bool:
        """Whether the trace is lawful."""
        return self.kind is VerdictKind.LAWFUL

    def __str__(self) -> str:
        words = f'{self.kind} {self.number}'
        return f'{words} {self.cause.__name__}' if self.cause else words


class TablePlan(NamedTuple):
    """A planned table: the owner of each partition, and how many partitions change theirs."""

    owners: tuple[int, ...]
    moves: int


class Call(NamedTuple):
    """The call that a node has under way. The result of an orphan is discarded."""

    kind: CallKind
    callee: int
    is_orphan: bool


class State(NamedTuple):
    """The state of a node: its number and status; its coordinator, if it has one; the node that halted it last, if any;
    what it wants to do next; the call that it has under way, if any; and how often it was stopped or crashed: since it
    was opened for an agent, and in its log for a replica."""

    node: int
    status: Status
    coordinator: int | None
    halter: int | None
    wants: Want
    call: Call | None
    generation: int


class Event(Named):
    """Events that a process appends for reasons of its own."""

    CRASH, RECOVER, CHECK, TIMEOUT, DROP = range(1, 6)


class Owned(NamedTuple):
    """What a node's process may work on: the token of the last plan, and the node's partitions by that plan, at least
    one, in rising order; the first partition of a group is 0."""

    token: int
    partitions: tuple[int, ...]
