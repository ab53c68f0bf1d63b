"""The setup of a group, the verdict on its trace, and its tables."""
from __future__ import annotations

import ctypes
import re
from collections.abc import Iterable, Sequence
from dataclasses import dataclass
from typing import Any

from .faults import FAULTS, expect_ok
from .library import STRUCTURES, UINT16_MAX, UINT32_MAX, Room, line_bytes, loaded, number_of, numbers_of, owners_of
from .values import EVENTS_MAX, PARTITIONS_MAX, TablePlan, Verdict, VerdictKind

HEADER = re.compile('bully,[1-3],[0-9]+,[0-9]+(,[0-9 ]*,(keep|clear))?')
__all__ = ['Setup', 'check', 'plan_table', 'status_name', 'version']


@dataclass(frozen=True)
class Setup:
    """The setup of a group. `weights` are those of nodes 1, 2 and so on; without them each node has weight 1. With
    `keeps` a node keeps its task over a crash. The calls that take a setup check it."""

    nodes: int
    partitions: int
    events_max: int = EVENTS_MAX
    weights: tuple[int, ...] = ()
    keeps: bool = False

    def header(self) -> str:
        """The header of a log with this setup, for the rows of replicas, without its line end: of version 1 if that can
        express the setup, and else of version 2, as `docs/FORMATS.md` says. `events_max` isn't in it: the bound of a
        log is always EVENTS_MAX.

        Raises BadNodes, BadPartitions, BadLimit, BadWeights, OutOfMemory."""
        return Room().row(loaded().bully_header, *setup_parts(self))

    def detailed_header(self) -> str:
        """The header of version 3 with this setup, for the rows that an `Agent` returns, without its line end.

        Raises BadNodes, BadPartitions, BadLimit, BadWeights, OutOfMemory."""
        return Room().row(loaded().bully_detailed_header, *setup_parts(self))


def setup_parts(setup: Setup) -> tuple[Any, ...]:
    """A setup, as the three arguments that the library takes."""
    weights = numbers_of('a weight', setup.weights)
    nodes = number_of('nodes', setup.nodes, UINT16_MAX)
    partitions = number_of('partitions', setup.partitions, UINT16_MAX)
    events = number_of('events_max', setup.events_max, UINT32_MAX)
    raw = STRUCTURES['bully_setup'](nodes, partitions, events, 1 if setup.keeps else 0)
    return (ctypes.byref(raw), *weights)


def setup_of(header: str) -> Setup:
    """The setup in a header of any version. Raises ValueError."""
    if HEADER.fullmatch(header) is None:
        raise ValueError(f'{header} is not a header')
    _, _, nodes, partitions, *more = header.split(',')
    weights = tuple(map(int, more[0].split())) if more else ()
    return Setup(int(nodes), int(partitions), weights=weights, keeps=more[1:] == ['keep'])


def version() -> str:
    """The version of the library, as `bully --version` prints it."""
    return str(loaded().bully_version(), 'ascii')


def status_name(status: int) -> str:
    """The name of a status of the library, as `OK`; `?` if no status has this number."""
    return str(loaded().bully_status_name(number_of('status', status, UINT32_MAX)), 'ascii')


def check(trace: str | bytes | bytearray | memoryview) -> Verdict:
    """Judges a trace, its text or the bytes of that, as `bully check` does. Other threads may run meanwhile.

    Raises BadHeader, BadRow or TooManyRows, with the row of the first fault; OutOfMemory."""
    if not isinstance(trace, (str, bytes, bytearray, memoryview)):
        raise TypeError(f'a trace must be str or bytes, and not {type(trace).__name__}')
    text = line_bytes(trace) if isinstance(trace, str) else bytes(trace)
    raw = STRUCTURES['bully_verdict']()
    status = loaded(for_long=True).bully_check(text, len(text), ctypes.byref(raw))
    expect_ok(status, raw.number)
    return Verdict(VerdictKind(raw.kind), raw.number, FAULTS[raw.cause] if raw.cause else None)


def plan_table(setup: Setup, members: Iterable[int], old: Sequence[int] | None = None) -> TablePlan:
    """Plans a table over these members, balanced by weight, with the fewest moves from the old table if there is one.

    Raises BadNodes, BadPartitions, BadLimit, BadWeights; BadNode for a member; TableLength or TableOwner for the old
    table; NoMember; OutOfMemory."""
    among, before = numbers_of('a member', members), owners_of(old)
    parts = setup_parts(setup)
    count = setup.partitions if setup.partitions <= PARTITIONS_MAX else 0
    owners, moves = (ctypes.c_uint16 * count)(), ctypes.c_uint16()
    expect_ok(loaded().bully_table(*parts, *among, *before, owners, count, ctypes.byref(moves)))
    return TablePlan(tuple(owners), moves.value)
