"""What an observer knows of a group, who takes no part in it: it uses a member's rules, but only reads snapshots.

While a group isn't stable a change is under way. `waits_for` and `coming_table` say what that waits for, and what comes
of it, by the rules of a member or of an observer after a snapshot.
"""
from __future__ import annotations

from collections.abc import Sequence
from typing import NamedTuple

from .adapter import core_opening_of, leases_of, seen_of
from .clocks import SECOND, nanoseconds_of_boot
from .core import Core, Promise
from .epochs import REBALANCE, Opening
from .shared_log import NOBODY, DamagedLog, Holder, Snapshot
from .values import Status

NO_PROCESS = 0  # no process that acquires a lease has this number
Table = Sequence[int]  # the owners of the partitions


class Owner(NamedTuple):
    """Who may work on a partition: the name of its node, and the token by which the last plan lets it. The token isn't
    known if the node keeps the partition by its promise: it is a lower one then."""

    name: str
    token: int | None


def coming_table(core: Core, opening: Opening) -> Table | None:
    """The table of the rebalance that would be appended now, after the core's last snapshot. None if no table is
    coming, so that all work stops: in an eager group, if the epoch has to roll over, and while no node is admitted.

    It takes memory and time: with 1,024 nodes some 50 ms. Raises OutOfMemory."""
    has_room = core.offset + REBALANCE * core.nodes <= opening.limit
    if not opening.is_cooperative or core.has_request or not has_room:
        return None
    plans = (row for row in core.rebalance() if row.startswith('plan,'))
    return next((tuple(map(int, plan.split(',')[2].split())) for plan in plans), None)


def taken_from(node: int, partitions: Sequence[int], coming: Table | None) -> tuple[int, ...]:
    """Those of these partitions of a node that the coming table gives to others: all, if no table is coming."""
    return tuple(each for each in partitions if coming is None or coming[each] != node)


def waits_for(core: Core, opening: Opening, found: Snapshot) -> dict[str, Holder]:
    """The holders of leases for which a change must wait, by name, in a group that isn't stable. The core has read this
    snapshot. These holders haven't promised the end of the log; or they have, and keep a partition that they lose. In a
    cooperative group they are holders that the change affects; in an eager one all count, also unknown processes.
    Raises OutOfMemory."""
    end, holders = Promise(opening.epoch, core.offset), found.holders
    if not opening.is_cooperative:
        return {name: holder for name, holder in holders.items() if holder.promise != end}
    nodes = {name: node for node, name in enumerate(opening.names, 1) if name in holders and core.is_affected(node)}
    kept = {name: holders[name].kept for name in nodes if holders[name].promise == end}
    coming = coming_table(core, opening) if any(kept.values()) else None
    ready = {name for name, partitions in kept.items() if not taken_from(nodes[name], partitions, coming)}
    return {name: holders[name] for name in nodes if name not in ready}


class Observer(Core):
    """The rules of a member in one epoch, for a process that acquires no lease. It admits sessions as a member does
    that reads snapshots as often: so a session whose node was Down in its first snapshot isn't admitted at that
    time, unless a change is under way. It has the rules of the highest node, which goes by all promises."""

    def __init__(self, opening: Opening, ttl: float) -> None:
        super().__init__(core_opening_of(opening, len(opening.names)), NO_PROCESS, int(ttl * SECOND))
        self._opening, self._names = opening, opening.names
        self._numbers = {name: number for number, name in enumerate(opening.names, 1)}

    @property
    def end(self) -> Promise:
        """The end of the log, as far as it was learned."""
        return Promise(self.epoch, self.offset)

    def see(self, found: Snapshot) -> None:
        """Takes in a snapshot of the rows after those that were learned.

        Raises DamagedLog or NotLearned if one of its rows isn't an event, or is refused."""
        self.woke()
        self.next(nanoseconds_of_boot())  # after a wait the core reads a snapshot
        self.learn(found.rows)
        if self.ending is not None:
            raise self.fault or DamagedLog('the log has a row that is not an event')
        self.snapshot_read(nanoseconds_of_boot(), seen_of(found, self.end, NOBODY, self._numbers, self._is_up))

    def owners(self, found: Snapshot) -> tuple[Owner | None, ...]:
        """Who may work on each partition, if anybody may, after the rows that were learned: by the last plan, or by
        what a promise keeps."""
        owners: list[Owner | None] = [None] * self.partitions
        for lease in leases_of(found.holders, self._numbers):
            name, owned = self._names[lease.node - 1], self.owned_of(lease)
            for partition in lease.kept:
                owners[partition] = Owner(name, None)
            for partition in owned.partitions if owned is not None else ():
                owners[partition] = Owner(name, owned.token if owned is not None else None)
        return tuple(owners)

    def coming(self) -> Table | None:
        """The table that is coming (`coming_table`)."""
        return coming_table(self, self._opening)

    def waits_for(self, found: Snapshot) -> dict[str, Holder]:
        """For whom a change waits (`waits_for`), if one is under way after this snapshot, which was read last."""
        is_over = self.is_stable() or found.is_frozen(self.end)
        return {} if is_over else waits_for(self, self._opening, found)

    def _is_up(self, node: int) -> bool:
        return self.state(node).status is not Status.DOWN
