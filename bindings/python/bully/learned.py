"""What a replica or a member has learned of a group's log."""
from __future__ import annotations

import ctypes
from collections.abc import Iterable
from typing import Any

from .faults import BadArgument, BullyError, NotLearned, expect_ok, fault_of
from .library import STRUCTURES, Opened, list_of, node_of, rows_bytes, state_of
from .values import Line, Rows, State


class Learned(Opened):
    """A handle of what was learned of a group's log."""

    _showing = ''  # the name of the function that shows a node

    def _begin(self, name: str, *arguments: Any) -> None:
        """Starts a log by this function. A fault of its header is one of row 1."""
        expect_ok(self._function(name)(*arguments), row=1)
        self._partitions = self.partitions

    def _learn(self, rows: Iterable[Line]) -> int:
        """Learns the rows, and returns how many they were; or raises why one isn't learned."""
        if isinstance(rows, (str, bytes)):
            raise TypeError('the rows to learn must be several lines, and not one')
        text, taken = rows_bytes(rows if isinstance(rows, Rows) else list(rows)), ctypes.c_size_t()
        status = self._function('learn')(text, len(text), ctypes.byref(taken))
        if status:
            raise self._not_learned(status, taken.value)
        return taken.value

    def _not_learned(self, status: int, taken: int) -> BullyError:
        """The exception for a row that wasn't learned, for this status, after so many that were."""
        why = fault_of(status)
        if isinstance(why, BadArgument):
            return why
        row = self.rows + 2
        refused = NotLearned(f'row {row}: {why}')
        refused.status, refused.taken, refused.row, refused.cause = status, taken, row, type(why)
        refused.__cause__ = fault_of(status, row)
        return refused

    # The state of a node after the rows that were learned.

    def state(self, node: int) -> State:
        """The node's state, read at one moment. Raises Closed, BadNode."""
        return state_of(self._show(node))

    def _show(self, node: int) -> ctypes.Structure:
        return self._filled(STRUCTURES['bully_state'](), self._showing, node_of(node))

    # The state of the group after the rows that were learned. Each raises Closed.

    @property
    def rows(self) -> int:
        """How many rows were learned, including claims: the index of the next one in a list without the header."""
        return int(self._group().rows)

    @property
    def events(self) -> int:
        """How many events there are in these rows."""
        return int(self._group().events)

    @property
    def token(self) -> int | None:
        """The token of the last plan, if there is one: how many events there are up to it, including it, so at least 1.
        A later plan has a higher token. Each node that is Normal works by the last plan: its coordinator is the plan's
        node, and its task is the plan's table."""
        return self._group().token or None

    @property
    def planner(self) -> int | None:
        """The node of the last plan, if there is one."""
        return self._group().planner or None

    @property
    def last_table(self) -> tuple[int, ...] | None:
        """The owner of each partition in the last plan's table, if there is a plan."""
        return list_of(self._partitions, self._function('planned')) or None

    @property
    def nodes(self) -> int:
        """The number of nodes, by the header."""
        return int(self._group().nodes)

    @property
    def partitions(self) -> int:
        """The number of partitions, by the header."""
        return int(self._group().partitions)

    @property
    def keeps(self) -> bool:
        """Whether a node keeps its task over a crash, by the header."""
        return bool(self._group().keeps)

    def _group(self) -> ctypes.Structure:
        return self._filled(STRUCTURES['bully_group'](), 'group')
