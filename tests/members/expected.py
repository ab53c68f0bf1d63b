"""What a member must expect by its snapshots, judged apart from its rules by docs/REBALANCING.md: who is admitted,
whether the group is stable for it, and the coming table. So what it stops for nothing in a cooperative group."""
from __future__ import annotations

from collections.abc import Iterable, Sequence

from bully import Replica, Status
from bully.core import Core, CoreOpening, Promise, Seen, Session
from .simulated_store import table_of
from .rebalanced import REBALANCE, is_stable


def last_table(rows: Sequence[str]) -> tuple[int, ...] | None:
    """The table of the last plan of these rows."""
    return next((table_of(row) for row in reversed(rows) if row.startswith('plan,')), None)


class Expected:
    """What a member must expect in an epoch that starts with this."""

    def __init__(self, opening: CoreOpening, ttl: int) -> None:
        self.opening, self.ttl = opening, ttl
        self.replica = Replica(opening.header)  # with what it has learned
        self.seen = Seen(0)  # its last snapshot
        # (of each node: when its session was first seen, and its stay)
        self.arrivals: dict[int, tuple[Session, int, int]] = {}
        self.group: list[int] = []  # the nodes that were admitted then
        self.end = 0  # where the log ended then
        self.promised = 0  # the last offset that its session has asked to promise

    def close(self) -> None:
        self.replica.close()

    def snapshot_read(self, now: int, rows: Sequence[str], seen: Seen) -> None:
        self.replica.learn(rows)
        self.seen = seen
        self.group = self._admitted(now) if seen.epoch == self.opening.epoch else []
        self.end = self.replica.rows

    def _passed(self) -> set[int]:
        """The nodes that were admitted, and that a rebalance of a cooperative group has passed over since."""
        is_new = self.opening.is_cooperative and (self.replica.token or 0) > self.end
        return {node for node in self.group if is_new and self.replica.state(node).status is Status.DOWN}

    def _admitted(self, now: int) -> list[int]:
        """Which live nodes are admitted now: those that are up in the log, or whose session has stayed long enough;
        all, while a change is under way, since a node that is up has promised the end of the log."""
        passed = self._passed()
        for lease in self.seen.leases:
            session, first, stay = self.arrivals.get(lease.node, (None, 0, 0))
            if session == lease.session and lease.node in passed:
                self.arrivals[lease.node] = lease.session, now, min(4 * stay, 10 * self.ttl)
            if session != lease.session:
                again = session is not None and now - first < 60 * self.ttl
                self.arrivals[lease.node] = (
                    lease.session,
                    now,
                    min(4 * stay, 10 * self.ttl) if again else self.ttl // 100,
                )

        end = Promise(self.opening.epoch, self.replica.rows)
        is_under_way = any(lease.promise == end and self._is_up(lease.node) for lease in self.seen.leases)

        def is_admitted(node: int) -> bool:
            _, first, stay = self.arrivals[node]
            return self._is_up(node) or now - first >= stay or is_under_way

        return [lease.node for lease in self.seen.leases if not lease.is_leaving and is_admitted(lease.node)]

    def _is_up(self, node: int) -> bool:
        return self.replica.state(node).status is not Status.DOWN

    @property
    def is_full(self) -> bool:
        """Whether its epoch has to roll over."""
        return self.seen.has_request or self.replica.rows + REBALANCE * self.replica.nodes > self.opening.rows_max

    def is_stable(self) -> bool:
        """Whether the group is stable for it, by its last snapshot. In a cooperative group only the highest live node
        goes by what others have promised."""
        own, leases = self.opening.node, self.seen.leases
        goes_by_all = not self.opening.is_cooperative or all(lease.node <= own for lease in leases)
        there = [lease for lease in leases if lease.node in self.group and (goes_by_all or lease.node == own)]
        promised = [lease.promise.offset for lease in there if lease.promise.epoch == self.opening.epoch]
        is_after = self.promised < (self.replica.token or 0)
        return not self.is_full and is_after and is_stable(self.replica, self.group, max(promised, default=0))

    def coming(self) -> tuple[int, ...]:
        """The table of the last plan of a stable group, or else that of the rebalance that would be appended now."""
        if self.is_stable():
            return self.replica.last_table or ()
        return last_table(self.replica.rebalance(self.group, self.opening.old)) or ()

    def judged(self, core: Core, now: int, stopped: Iterable[int]) -> tuple[set[int], set[int]]:
        """Of the partitions that the member of a cooperative group stops those that move, and those that it stops for
        nothing; none if it may not go on with anything."""
        goes_on = now < core.sure_until and core.ending is None and self.seen.epoch == core.epoch and not self.is_full
        table, asked = self.coming() if goes_on else (), set(stopped) if goes_on else set()
        moving = {partition for partition in asked if not table or table[partition] != core.node}
        return moving, asked - moving
