"""What a process knows of a group whose history is a log in a store."""
from __future__ import annotations

import ctypes
from collections.abc import Iterable

from .learned import Learned

from .library import (
    UINT32_MAX, call_of, line_of, list_of, node_of, number_of, numbers_of, owned_of, owners_of, texts_of,
)  # fmt: skip
from .values import Call, Event, Line, Owned, Status, Want


class Replica(Learned):
    """What a process knows of a group whose history is a log: rows in a store that many processes read, and to which a
    row is appended after exactly the rows that were read, or not at all.

    A process learns the rows in order. `next`, `crash`, `recover`, `check`, `timeout` and `drop` return a row that it
    may append, or raise an exception. They change nothing: the row must first be appended to the log, after exactly the
    rows that were learned, and is then learned like any other. If another row was appended there first, the process
    learns that one, and asks again. A log to which each row is appended in this way is lawful.

    A replica holds memory of the library until it is closed, as by `with`."""

    _kind, _showing = 'bully_replica', 'show'
    _single = 'a replica can not be copied: open another one with the same header, and have it learn the rows'

    def __init__(self, header: Line) -> None:
        """The replica of a log with this header and no row. The header is as `Setup.header` returns it, with its line
        end or without.

        Raises BadHeader, also if there are rows after it; OutOfMemory."""
        super().__init__()
        self._begin('open', *line_of(header))
        self._nodes = self.nodes

    def _words(self) -> str:
        return f'of {self.nodes} nodes, {self.rows} rows'

    # Learning.

    def learn(self, rows: Iterable[Line]) -> int:
        """Learns the next rows of the log, in order and as `check` takes them, and returns how many they were. A row
        has no line end, as in a store, or one line feed at its end.

        Raises NotLearned for the first row that isn't learned: the rows before it stay learned. Otherwise, if it raises
        an exception, it has learned nothing: ValueError if a row is blank or has a line end inside, so that it isn't
        exactly one row; TypeError if something isn't a line, or `rows` is a single line; Closed."""
        return self._learn(rows)

    # Rows to append. These calls change nothing.

    def next(self, node: int) -> str | None:
        """The row that the node appends next by itself, without its line end; None if it has none. If it isn't Down, it
        first runs the call of the lowest caller that waits for it. Otherwise its procedure takes a step; a table is
        planned with the fewest moves from that of the last plan.

        Raises Closed, BadNode, OutOfMemory; Full if the log has no room for the row."""
        return self._room.row(self._function('next'), node_of(node)) or None

    def crash(self, node: int) -> str:
        """The row by which the node crashes, or must stop. Raises Closed, BadNode, Full, IsDown, OutOfMemory."""
        return self._event(node, Event.CRASH)

    def recover(self, node: int) -> str:
        """The row by which the node recovers. Raises Closed, BadNode, Full, IsUp, OutOfMemory."""
        return self._event(node, Event.RECOVER)

    def check(self, node: int) -> str:
        """The row by which the node, which is idle and the coordinator, starts to check the others.

        Raises Closed, BadNode, Full, IsDown, Busy, OutOfMemory."""
        return self._event(node, Event.CHECK)

    def timeout(self, node: int) -> str:
        """The row by which the node, which is idle, has heard nothing for too long.

        Raises Closed, BadNode, Full, IsDown, Busy, OutOfMemory."""
        return self._event(node, Event.TIMEOUT)

    def drop(self, node: int) -> str:
        """The row by which the node gives up its call, which is an orphan.

        Raises Closed, BadNode, Full, IsDown, NoCall, NotOrphan, OutOfMemory."""
        return self._event(node, Event.DROP)

    def _event(self, node: int, event: Event) -> str:
        return self._room.row(self._function('event'), node_of(node), event)

    # Who works, and how a group becomes stable. These calls change nothing.

    def rebalance(self, live: Iterable[int], old: Iterable[int] | None = None) -> list[str]:
        """The rows that make the group stable among these live nodes, in any order, without line ends. They must be
        appended after exactly the rows that were learned, with nothing between them, and by one process alone. Without
        a live node all nodes crash; otherwise the highest is elected, and plans from the last plan's table. If the log
        has no plan, it plans from the old table, the last one of the epoch before, in which 0 is an owner that isn't in
        the group. There are at most 11 rows for each node of the group.

        Raises Closed; BadNode for a live node; TableLength, TableOwner; Full if the log has no room; OutOfMemory."""
        return texts_of(self._room.text(self._function('rebalance'), *numbers_of('a node', live), *owners_of(old)))

    def is_stable(self, live: Iterable[int], offset: int = 0) -> bool:
        """Whether the group is stable among these live nodes: all of them are Normal under the highest of them, and all
        others are Down; and, if there is any, the last plan has a token above this offset, and live owners.

        Raises Closed, BadNode."""
        nodes, at = numbers_of('a node', live), number_of('an offset', offset, UINT32_MAX)
        return bool(self._filled(ctypes.c_uint32(), 'is_stable', *nodes, at).value)

    def owned(self, node: int, offset: int = 0) -> Owned | None:
        """The token by which the node's process may work after so many events, and its partitions; None if it may not.
        It may if the node is Normal, owns a partition, and the last plan's token is above this offset.

        Raises Closed, BadNode, OutOfMemory."""
        at = number_of('an offset', offset, UINT32_MAX)
        return owned_of(self._partitions, self._function('owned'), node_of(node), at)

    # The state of a node after the rows that were learned; `state` has all of it. Each raises Closed and BadNode.

    def status(self, node: int) -> Status:
        """The node's status."""
        return Status(self._show(node).status)

    def coordinator(self, node: int) -> int | None:
        """The node's coordinator, if it has one."""
        return self._show(node).coordinator or None

    def halter(self, node: int) -> int | None:
        """The node that halted this one last, if any."""
        return self._show(node).halter or None

    def up(self, node: int) -> tuple[int, ...]:
        """The lower nodes that answered the node's halts, in rising order."""
        return list_of(self._nodes, self._function('up'), node_of(node))

    def task(self, node: int) -> tuple[int, ...] | None:
        """The owner of each partition in the node's task, if it has one."""
        return list_of(self._partitions, self._function('task'), node_of(node)) or None

    def wants(self, node: int) -> Want:
        """What the node's procedure wants to do next."""
        return Want(self._show(node).wants)

    def call(self, node: int) -> Call | None:
        """The call that the node has under way, if any."""
        return call_of(self._show(node))

    def generation(self, node: int) -> int:
        """How often the node was stopped or crashed in the log."""
        return int(self._show(node).generation)
