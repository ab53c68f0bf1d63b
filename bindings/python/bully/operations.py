"""What an operator does to a running group: resize it, have another node lead, drain a node, or pause the group.

Requested settings and maintenance are kept in the store. Once members see other settings they stop their work; when all
are idle, one of them ends the epoch, and the next epoch starts with these settings. If no member runs, the operator's
command ends the epoch.
"""
from __future__ import annotations

import dataclasses
import secrets
import time
from collections.abc import Callable

from .clocks import SECOND, seconds_of_boot, sleep_until_ready
from .core import Promise, Session, Until
from .epochs import TTL, Opening
from .maintenance import Maintenance
from .member import node_number
from .observer import Observer
from .settings import Settings
from .shared_log import Log, Snapshot, Unanswered, found_in

EPOCH_WAIT = 0.5  # the longest of the waits for the end of an epoch, in seconds
ASK_AGAIN = 0.1  # seconds before a log that didn't answer is asked again
OWN_TTL = 5 * SECOND  # of the command's own lease, if no member runs
TRIES = 100  # to set maintenance that others change at the same time
SNAPSHOT_EVERY = 0.1  # seconds from one snapshot to the next

Change = Callable[[Opening, Snapshot], Maintenance]


# ---- Settings


class NotEnded(Exception):
    """The epoch didn't end in time, or another request to resize came first."""


def resize(log: Log, settings: Settings, seconds: float) -> Opening:
    """Ends the current epoch, so that the next one starts with these settings, unless the group already has them.
    Returns the opening of the epoch that has them. If that takes longer than so many seconds, the request to resize
    stays.

    Raises NotEnded, also if the group is paused, and what the log and a replica raise; Unanswered only at the end."""
    end = seconds_of_boot() + seconds
    while True:
        try:
            opening = resize_once(log, settings, end)
        except Unanswered:
            if seconds_of_boot() >= end:
                raise
            sleep_until_ready(ASK_AGAIN)
        else:
            if opening is not None:
                return opening


def resize_once(log: Log, settings: Settings, end: float) -> Opening | None:
    """The opening of the epoch that has these settings; None if that must be read again."""
    opening, found = log.opening(), found_in(log)
    if opening.is_of(settings):
        if found.requested is None:
            return opening
        log.cancel(opening.epoch)
    elif found.maintenance.is_paused:
        raise NotEnded('the group is paused, so no epoch ends; bully-member resume ends the pause')
    elif log.ask(opening.requested(settings), opening.epoch):
        end_epoch(log, opening, end)
        after = log.opening(opening.epoch + 1)
        if after.is_of(settings):
            return after
        other = f'{after.header} of {", ".join(after.names)}'
        raise NotEnded(f'epoch {after.epoch} has started with other settings: {other}')
    return None


def lead(log: Log, name: str, seconds: float) -> Opening:
    """The node of this name leads in the next epoch: it gets the highest number, and all else stays.

    Raises NotEnded, also if nobody holds the node's lease, and what `resize` raises."""
    opening = log.opening()
    if name not in found_in(log).holders:
        raise NotEnded(f'{name} is not live, so it could not lead')
    settings = opening.settings
    order = sorted(range(len(settings.names)), key=lambda index: settings.names[index] == name)
    weights = settings.setup.weights and tuple(settings.setup.weights[index] for index in order)
    setup = dataclasses.replace(settings.setup, weights=weights)
    return resize(log, Settings(setup, tuple(settings.names[index] for index in order)), seconds)


def end_epoch(log: Log, opening: Opening, end: float) -> None:
    """Returns once the epoch has ended. Raises NotEnded if that doesn't happen in time."""
    process, tries = secrets.randbits(63), 0
    with Observer(opening, opening.ttl or TTL) as observer:
        while True:
            found = log.snapshot(opening.epoch, observer.rows)
            if found.epoch != opening.epoch:
                return
            observer.see(found)
            here = observer.end
            if found.requested is not None and not found.holders:
                tries += 1
                after = opening.next(found.requested, observer.last_table or opening.table)
                end_alone(log, Session(process, tries), here, after)
            elif seconds_of_boot() >= end:
                raise NotEnded(f'epoch {opening.epoch} has not ended yet; {why_not_ended(observer, found)}')
            else:
                left = max(0.0, min(EPOCH_WAIT, end - seconds_of_boot()))
                log.wait(here.epoch, here.offset, found.sessions, Until.NEWS, left)


def why_not_ended(observer: Observer, found: Snapshot) -> str:
    """What the end of an epoch waits for."""
    if found.is_frozen(observer.end):
        return 'the group is paused'
    return f'it waits for {", ".join(observer.waits_for(found) or found.holders)}'


def end_alone(log: Log, session: Session, here: Promise, opening: Opening) -> None:
    """Ends the epoch, unless somebody else comes meanwhile."""
    name = f'resize {session.process}'  # for the group this is an unknown process
    if log.acquire(name, session, here, OWN_TTL):
        try:
            log.roll_over(here.epoch, here.offset, opening)
        finally:
            log.release(name, session)


# ---- Maintenance


def set_maintenance(log: Log, change: Change) -> Maintenance:
    """Changes the maintenance, and returns it. Nodes that aren't in the group any more drop out of it."""
    for _ in range(TRIES):
        opening, found = log.opening(), found_in(log)
        after = change(opening, found).among(set(opening.names))
        if after == found.maintenance or log.set_maintenance(after, found.maintenance):
            return after
    raise Unanswered('others changed the maintenance at the same time')


class LastNode(Exception):
    """A drain would leave no node to work."""


def drain(log: Log, name: str, takes_last: bool) -> Maintenance:
    """Drains the node of this name. Raises NotInGroup; LastNode if no node would be left to work, unless
    `takes_last`."""

    def change(opening: Opening, found: Snapshot) -> Maintenance:
        node_number(opening, name)
        drained, names = found.maintenance.drained | {name}, set(opening.names)
        others = (names & set(found.holders) or names) - drained
        if not others and name not in found.maintenance.drained and not takes_last:
            raise LastNode(f'{name} is the last node left that is not drained, so no node would work')
        return dataclasses.replace(found.maintenance, drained=drained)

    return set_maintenance(log, change)


def undrain(log: Log, name: str) -> Maintenance:
    """Ends the drain of the node; a node that gave up tries again. Raises NotInGroup."""

    def change(opening: Opening, found: Snapshot) -> Maintenance:
        node_number(opening, name)
        return dataclasses.replace(found.maintenance, drained=found.maintenance.drained - {name})

    after = set_maintenance(log, change)
    if found_in(log).failing.get(name):
        log.note(name, None)
    return after


def pause(log: Log) -> Maintenance:
    """Pauses the group, unless it is paused already, and notes who holds a lease."""

    def change(_: Opening, found: Snapshot) -> Maintenance:
        if found.maintenance.is_paused:
            return found.maintenance
        return dataclasses.replace(found.maintenance, sessions=found.sessions)

    return set_maintenance(log, change)


def resume(log: Log) -> Maintenance:
    """Ends the pause."""
    return set_maintenance(log, lambda _, found: dataclasses.replace(found.maintenance, sessions=None))


def has_left(log: Log, name: str, seconds: float) -> bool:
    """Waits for so many seconds at most until nobody holds the node's lease. Returns whether that is so."""
    end = seconds_of_boot() + seconds
    while name in found_in(log).holders:
        if seconds_of_boot() >= end:
            return False
        time.sleep(SNAPSHOT_EVERY)
    return True
