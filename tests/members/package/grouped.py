"""A cooperative group of members in threads, whose work is noted, and views of it."""
from __future__ import annotations

import threading
from collections.abc import Sequence
from typing import Any

from bully import view
from bully.epochs import Opening, Token
from bully.member import Assignment, Member
from bully.replica import Replica
from bully.shared_log import Holder, Log
from bully.core import Promise, Session
from ..steps import LONG
from ..waiting import PATIENCE, wait_until
from .threads import Threads, Troubled

HEADER = 'bully,1,4,12'
COOPERATIVE = Opening.first(HEADER, 'abcd', is_cooperative=True)
EAGER = Opening.first(HEADER, 'abcd')
Said = dict[str, list[tuple[str, tuple[int, ...]]]]  # what each worker was called with


class Worker:
    """What the callbacks of a member were called with, and what it works on by which token."""

    def __init__(self) -> None:
        self.said: list[tuple[str, tuple[int, ...]]] = []
        self.works: dict[int, Token] = {}
        self.may_stop = threading.Event()  # a callback that revokes partitions waits for it
        self.may_stop.set()

    def assigned(self, assignment: Assignment, partitions: tuple[int, ...]) -> None:
        self.said.append(('assigned', partitions))
        self.works.update(dict.fromkeys(assignment.partitions, assignment.token))

    def revoked(self, partitions: tuple[int, ...]) -> None:
        self.end('revoked', partitions)

    def lost(self, partitions: tuple[int, ...]) -> None:
        self.end('lost', partitions)

    def end(self, words: str, partitions: tuple[int, ...]) -> None:
        self.may_stop.wait()
        self.said.append((words, partitions))
        for partition in partitions:
            del self.works[partition]

    def stopped(self) -> list[int]:
        """The partitions on which work was stopped, in rising order."""
        return sorted(partition for words, partitions in self.said if words != 'assigned' for partition in partitions)


def share_out(log: Log, *names: str) -> dict[str, Session]:
    """These nodes hold leases for long, and have rebalanced the group; nobody takes steps for them."""
    opening = log.opening()
    end = Promise(opening.epoch, len(log.read(opening.epoch, 0)))
    sessions = {name: Session(9, opening.names.index(name) + 1) for name in names}
    assert all(log.acquire(name, session, end, LONG) for name, session in sessions.items())
    with Replica(opening.header) as replica:
        replica.learn(log.read(opening.epoch, 0))
        rows = replica.rebalance([session.number for session in sessions.values()])
    assert log.append(end.epoch, end.offset, rows)
    return sessions


class Viewed(Threads):
    """Tests with views of a log."""

    def seen_doing(self, group: view.GroupView, doing: view.Doing) -> dict[int, tuple[str | None, str | None]]:
        """The partitions of which that becomes, with who may work on them, and who will own them."""
        return {
            partition: (each.owner, each.coming)
            for partition, each in enumerate(group.partitions)
            if each.doing is doing
        }  # fmt: skip


class Grouped(Viewed):
    """A group of four with three partitions each, as far as its members are there."""

    OPENING = COOPERATIVE

    def setUp(self) -> None:
        self.log = Troubled(self.OPENING)
        self.members: dict[str, tuple[Member, Worker, threading.Thread]] = {}

    def come(self, name: str, ttl: float = 2.0, **more: Any) -> Worker:
        """A member for that node, which runs."""
        worker = Worker()
        given = {'on_assigned': worker.assigned, 'on_revoked': worker.revoked, 'on_lost': worker.lost}
        number = self.log.opening().names.index(name) + 1
        member, _, thread = self.begin(self.log, number, ttl, work=given, **more)
        self.addCleanup(worker.may_stop.set)
        self.members[name] = member, worker, thread
        return worker

    def all_come(self, names: str) -> None:
        for name in names:
            self.come(name)
        wait_until(lambda: self.is_shared(names))

    def works(self) -> dict[str, tuple[int, ...]]:
        """On what each worker works."""
        return {name: tuple(sorted(worker.works)) for name, (_, worker, _) in self.members.items() if worker.works}

    def owners(self) -> dict[str, tuple[int, ...]]:
        """On what each member says that it may work."""
        shown = {name: member.assignment() for name, (member, _, _) in self.members.items()}
        return {name: each.partitions for name, each in shown.items() if each is not None}

    def leave(self, name: str) -> Worker:
        """Its member leaves. What its worker was."""
        member, worker, thread = self.members.pop(name)
        member.leave()
        thread.join(PATIENCE)
        return worker

    def is_shared(self, names: Sequence[str] | None = None) -> bool:
        """Whether these, or all that have come, and no others work on all partitions, by the last plan."""
        tokens = {token for _, worker, _ in self.members.values() for token in worker.works.values()}
        works, count = self.works(), self.log.opening().settings.setup.partitions
        is_whole = sorted(sum(works.values(), ())) == list(range(count)) and tokens == {self.last_token()}
        wanted = sorted(self.members if names is None else names)
        return is_whole and works == self.owners() and sorted(works) == wanted

    def last_token(self) -> Token | None:
        opening, rows = self.log.opening(), self.log.rows[:]
        plans = [offset for offset, row in enumerate(rows) if row.startswith('plan')]
        return Token.of(opening.epoch, 1 + plans[-1]) if plans else None

    def said(self) -> Said:
        """What each worker was called with."""
        return {name: worker.said[:] for name, (_, worker, _) in self.members.items()}

    def stopped_since(self, said: Said) -> dict[str, list[int]]:
        """On which partitions the work of each was stopped since it was called with that."""
        news = {name: worker.said[len(said.get(name, ())) :] for name, (_, worker, _) in self.members.items()}
        stops = {
            name: [each for words, partitions in told if words != 'assigned' for each in partitions]
            for name, told in news.items()
        }
        return {name: sorted(partitions) for name, partitions in stops.items() if partitions}

    def keep(self, name: str, session: Session, *kept: int) -> None:
        """That session promises the end of the log, and keeps these."""
        opening = self.log.opening()
        assert self.log.promise(name, session, Promise(opening.epoch, len(self.log.rows)), kept)

    def holder(self, name: str) -> Holder:
        return self.log.holders[name]
