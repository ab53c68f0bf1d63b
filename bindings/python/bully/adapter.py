"""Between a core and a log: what a core is shown of a snapshot, and what a change of the log compares.

`bully.driver` uses these functions. During a pause the core is shown a group in which all is as the log has it, so it
rebalances nothing.
"""
from __future__ import annotations

from collections.abc import Callable, Container, Iterable, Mapping
from operator import attrgetter

from .core import Core, CoreOpening, Lease, Promise, Seen, Session, Until
from .epochs import Opening
from .shared_log import Holder, Log, Precondition, Snapshot, found_in, renewed


def needs_promises(core: Core, found: Snapshot, now: int) -> bool:
    """Whether the core must be shown what others have promised, after this snapshot, which it was shown last. In a
    pause each member must (`Snapshot.is_frozen`)."""
    return found.maintenance.is_paused or core.needs_promises(now)


def known_of(core: Core, opening: Opening, found: Snapshot, name: str, own: Holder | None) -> Precondition | None:
    """What a change that the core asks for compares of leases: all, in an eager group, or if the member ends. The
    snapshot is the last one that the core was shown; `own` is what its session, for the node of this name, was last
    known to have promised."""
    if not opening.is_cooperative or core.ending is not None:
        return None
    affected = frozenset(each for number, each in enumerate(opening.names, 1) if core.is_affected(number))
    return Precondition(affected, {**found.holders, **({name: own} if own is not None else {})}, found.revision)


# ---- What the core is shown


def core_opening_of(opening: Opening, node: int) -> CoreOpening:
    """The opening of this epoch, for a core that acts for this node."""
    table = opening.table or None
    return CoreOpening(opening.header, opening.epoch, node, opening.limit, table, opening.is_cooperative)


class Leases:
    """Makes the leases that a core is shown. A lease is the same object as before if its holder is, and so are all of
    them together."""

    def __init__(self) -> None:
        self._made: dict[str, Lease] = {}  # the last ones, by name
        self._of: tuple[Mapping[str, Holder], Mapping[str, int], Container[str]] = {}, {}, ()  # of which holders
        self._last: tuple[Lease, ...] = ()

    def of(
        self, holders: Mapping[str, Holder], numbers: Mapping[str, int], leaving: Container[str] = ()
    ) -> tuple[Lease, ...]:  # fmt: skip
        """The leases of nodes of the group, in rising order of the nodes. The nodes of these names are known to
        leave."""
        last_holders, last_numbers, last_leaving = self._of
        is_alike = numbers is last_numbers and leaving == last_leaving
        if holders is last_holders and is_alike:
            return self._last
        new = [(name, holders[name]) for name in renewed(last_holders if is_alike else {}, holders) if name in numbers]
        made = {name: self._lease(name, holder, numbers[name], name in leaving) for name, holder in new}
        kept = {name: lease for name, lease in self._made.items() if name in holders and name in numbers}
        self._made, self._of = {**kept, **made}, (holders, numbers, leaving)
        self._last = tuple(sorted(self._made.values(), key=attrgetter('node')))
        return self._last

    def _lease(self, name: str, holder: Holder, node: int, is_leaving: bool) -> Lease:
        before, lease = self._made.get(name), Lease(node, holder.session, holder.promise, holder.kept, is_leaving)
        return before if before is not None and before == lease else lease


def leases_of(holders: Mapping[str, Holder], numbers: Mapping[str, int]) -> tuple[Lease, ...]:
    """The leases of nodes of the group, in rising order of the nodes."""
    return Leases().of(holders, numbers)


def seen_of(
    found: Snapshot, end: Promise, name: str, numbers: Mapping[str, int], is_up: Callable[[int], bool],
    leases: Leases | None = None,
) -> Seen:  # fmt: skip
    """What the core is shown of a snapshot. The core acts for the node of this name, and has learned the log up to
    `end`; `numbers` has the numbers of all names, and `is_up` says which numbers are up in the log.

    During a pause the core is shown an unknown process, for which it waits in an eager group. In a cooperative group it
    waits if its own session was acquired during the pause, or its node isn't up: then its lease is shown as that of a
    session that leaves, which isn't admitted. Otherwise its lease is shown as that of a session that stays."""
    is_frozen = found.is_frozen(end)
    up = [each for each, number in numbers.items() if is_up(number)] if is_frozen else []
    holders = frozen(found, name, up) if is_frozen else found.holders
    was_there = name in up and found.sessions.get(name) == (found.maintenance.sessions or {}).get(name)
    leaving = known_to_leave(found) - {name} | ({name} if is_frozen and not was_there else set())
    there = (leases or Leases()).of(holders, numbers, leaving)
    has_unknown, has_request = is_frozen or len(there) < len(holders), found.requested is not None and not is_frozen
    return Seen(found.epoch, there, has_unknown, has_request)


def known_to_leave(found: Snapshot) -> set[str]:
    """The nodes whose holders are known to leave."""
    maintenance, holders = found.maintenance, found.holders
    maybe = holders.keys() & (maintenance.drained | maintenance.leaving.keys())
    return {each for each in maybe if maintenance.is_known_to_leave(each, holders[each].session)}


def note_leaving(log: Log, name: str, session: Session) -> None:
    """Notes in the log that this session of that node leaves, so that all others stop at once what its leaving takes
    from them, and not only after it has stopped. Nothing is noted if that is known, if the session holds no lease or
    is alone, in a pause, or if others change the maintenance at the same moment: then they stop later."""
    found = found_in(log)
    maintenance, sessions = found.maintenance, found.sessions
    is_known = maintenance.is_paused or maintenance.is_known_to_leave(name, session)
    if sessions.get(name) == session and len(sessions) > 1 and not is_known:
        log.set_maintenance(maintenance.with_leaving(name, sessions), maintenance)


def frozen(found: Snapshot, name: str, up: Iterable[str]) -> dict[str, Holder]:
    """The leases that the node of this name is shown during a pause: those of all nodes that are up in the log, because
    they work. Its own lease is shown as it is: if that was lost, or acquired during the pause, its work waits until the
    pause is over."""
    sessions = found.maintenance.sessions or {}
    shown = {each: Holder(sessions.get(each, Session(0, 0)), Promise()) for each in up}
    shown.pop(name, None)
    return {**shown, **{each: holder for each, holder in found.holders.items() if each == name}}


def awaited(until: Until, seen: Seen, needs_promises: bool) -> Until:
    """What a wait is for, after a snapshot that showed this. Promises are of no use to a core that doesn't need them,
    and while there is an unknown process, because not all are idle before that is gone."""
    is_in_vain = until is Until.ALL_IDLE and seen.has_unknown
    return Until.NEWS if is_in_vain or not needs_promises else until
