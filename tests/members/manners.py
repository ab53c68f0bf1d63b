"""A group in which nothing goes wrong: how long may what its members do take there, and how often may they ask?

No rule of these is one that another member's safety rests on: a member that breaks it waits longer, or asks more often.
"""
from __future__ import annotations

import random
from collections import Counter
from collections.abc import Callable
from functools import partial

from bully import operations
from bully.core import Request
from bully.driver import Call, Result
from bully.epochs import Opening
from bully.maintenance import Maintenance
from .driven import Member, Wrong
from .over_memory import MemoryMember, OverMemory
from .stabilizing import Simulation, each_mode
from .trouble import Trouble

REMEMBERED = 61  # ttl: after so long nobody knows that a node came before
PROMPT = 0.12  # ttl in which all work again once one has come, by units of a hundredth of it
PATIENCE = 1.0  # ttl


class Nothing(Trouble):
    """Nothing goes wrong, and trips are short."""

    def __init__(self, choice: random.Random) -> None:
        super().__init__(choice)
        self.lost = self.unanswered = self.slow = self.late = self.ends = self.renewal_pauses = 0.0
        self.pauses = self.deaths = self.leaves = self.cuts = self.joins = self.loops = self.resizes = self.prunes = 0.0
        self.trip, self.patience, self.room, self.unit, self.slowest = 0.002, PATIENCE, 10_000, 0.01, None
        self.nodes_least, self.nodes, self.notes_leaves = choice.choice([2, 3, 3]), 4, True


class Mannered(MemoryMember):
    """It notes what it asks for. Its first lease may be acquired late: only after the store was asked to release it."""

    simulation: Manners

    def __init__(self, simulation: Simulation, name: str, number: int, opening: Opening) -> None:
        super().__init__(simulation, name, number, opening)
        self.late_acquire: Callable[[], object] | None = None

    def called(self, step: Call) -> Callable[[], Result]:
        call = super().called(step)
        if step.ask.request is not Request.RELEASE or self.late_acquire is None:
            return call
        acquire, self.late_acquire = self.late_acquire, None
        return lambda: (call(), acquire())[0]

    def ask(self, step: Call) -> None:
        request = step.ask.request
        self.simulation.asks[request] += 1
        if request is Request.ACQUIRE and self.simulation.acquires_late:
            self.simulation.acquires_late, self.late_acquire = False, self.called(step)
            self.cut_until = self.simulation.now + 1
        super().ask(step)


class Manners(OverMemory):
    """The group."""

    member = Mannered

    def __init__(self, seed: int) -> None:
        super().__init__(seed, Nothing, each_mode(seed))
        self.is_calm, self.acquires_late, self.leaver = True, False, ''
        self.asks: Counter[Request] = Counter()

    def run(self) -> None:
        names = self.store.epoch.settings.names
        for name in names:
            self.begin(name)
        self.become_stable()
        turns = (
            self.one_comes,
            self.one_comes_late,
            self.one_leaves,
            self.one_is_drained,
            self.one_is_cut_off_and_leaves,
            self.works_for_long,
        )
        for turn in turns:
            turn(self.choice.choice(names))
            self.become_stable()

    def process(self, name: str) -> Member:
        return next(member for member in self.alive() if member.name == name)

    def instability_with(self, name: str) -> str | None:
        return self.instability() if name in self.store.held() else f'{name} is not live'

    def await_all(self, name: str, most: float) -> None:
        """The node is live, and all partitions are worked on, within so much of a ttl."""
        end = self.now + int(most * self.ttl)
        while self.now < end and self.instability_with(name) is not None:
            self.live(self.now + self.ttl // 200)
        if self.instability_with(name) is not None:
            raise Wrong(f'{name} comes, and within {most} ttl {self.instability_with(name)}')

    def go(self, name: str) -> None:
        """It leaves, and the others work on."""
        self.process(name).leave()
        self.become_stable()

    def one_comes(self, name: str) -> None:
        """A node that comes, and wasn't there for long, is admitted after its first stay, and nobody waits for anything
        else."""
        self.go(name)
        self.live(self.now + REMEMBERED * self.ttl + self.some(1.0))
        self.begin(name)
        self.await_all(name, PROMPT)

    def one_comes_late(self, name: str) -> None:
        """An earlier session of a process, whose lease is acquired late, is released at once."""
        self.go(name)
        self.live(self.now + REMEMBERED * self.ttl + self.some(1.0))
        self.acquires_late = True
        self.begin(name)
        self.await_all(name, PATIENCE + 3 * PROMPT)

    def stops(self, member: Member, stopped: frozenset[int]) -> None:
        if self.leaver and self.leaver not in self.store.held():
            raise Wrong(f'{member} stops work only after {self.leaver} is gone')
        super().stops(member, stopped)

    def one_leaves(self, name: str) -> None:
        """While a member that leaves stops its work the others stop what they lose, so that is one round."""
        self.leave_in_one_round(name, self.process(name).leave)
        self.begin(name)

    def one_is_drained(self, name: str) -> None:
        """The same of a node that is drained."""
        self.leave_in_one_round(
            name, partial(self.set_maintenance, partial(operations.drain, self.store.log, name, takes_last=False))
        )
        self.live(self.now + self.ttl)
        self.set_maintenance(partial(operations.undrain, self.store.log, name))

    def set_maintenance(self, change: Callable[[], Maintenance]) -> None:
        self.last_set = change()
        self.tell_all()

    def leave_in_one_round(self, name: str, leave: Callable[[], object]) -> None:
        """It leaves, and takes a while to stop."""
        before, works = self.happened['an append'], self.process(name).rules.works()
        self.process(name).worker.pause(self.now + self.ttl // 2)
        leave()
        self.leaver = name if works else ''
        self.live(self.now + self.ttl)
        self.leaver, appends = '', self.happened['an append'] - before
        if appends != 1 or name in self.store.held():
            raise Wrong(f'{name} leaves, and its group is rebalanced {appends} times')

    def one_is_cut_off_and_leaves(self, name: str) -> None:
        """A member that must end, and isn't sure of its lease, asks once to release it, and ends."""
        member = self.process(name)
        member.cut_until = self.now + 100 * self.ttl
        self.live(self.now + int(1.5 * self.ttl))
        member.leave()
        self.live(self.now + int((2 * PATIENCE + 0.5) * self.ttl))
        if not member.is_dead:
            raise Wrong(f'{member} was cut off, and does not end')
        self.begin(name)

    def works_for_long(self, name: str) -> None:
        """While the highest works on for long after a death the others wait for it, and then leave it its turn."""
        lowest, *_, highest = self.store.epoch.settings.names
        before, done = self.asks[Request.APPEND], self.happened['an append']
        self.process(lowest).die()
        self.process(highest).worker.pause(self.now + 2 * self.ttl)
        self.live(self.now + 3 * self.ttl)
        asked, done = self.asks[Request.APPEND] - before, self.happened['an append'] - done
        if (asked, done) != (1, 1):
            raise Wrong(f'it was asked {asked} times to append, and done {done} times')
        self.begin(lowest)
