"""A stable group, and one node of it whose process dies or leaves again and again. How often does that stop the
others' work?

A new session of the node is admitted once it has stayed for a hundredth of the ttl, the next one for four times as
long, and so on up to ten ttl, as long as each comes within 60 ttl after the one before. So of sessions that are live
for less than ten ttl five are admitted at most, after stays of 0.01, 0.04, 0.16, 0.64 and 2.56 ttl. Each of them stops
the others' work when it is admitted, and when it is gone; and so does the end of the first one. This holds because a
session acquires its lease only once the others have rebalanced the group without the session before, so that the node
is Down: a node that is up is admitted at once. And it holds within an epoch: the next one starts with no memory of who
came, so epochs have room for 100 events a node and more here.
"""
from __future__ import annotations

import random
from collections import Counter

from .driven import Member, Wrong
from .over_memory import OverMemory
from .stabilizing import each_mode
from .trouble import TTL, Trouble

FOR = 60  # ttl
MOST = (
    6  # times a member stops work because the node has come: it is admitted five times, for some later than for others
)
RETURNS = 4  # after which the next session of the node must stay for ten ttl, as long as others remember these
STILL = 1.0  # ttl for which nobody works on a partition at most, though members remember differently who came


class Restarts(Trouble):
    """Nothing else goes wrong. A session lasts for so much of a ttl at most, and the next one comes so much later at
    most."""

    def __init__(self, choice: random.Random) -> None:
        super().__init__(choice)
        self.room, self.nodes_least, self.nodes, self.patience = 10_000, 2, 6, 3.0
        self.length, self.gap, self.leaving = (
            choice.choice([0.05, 0.3, 1.0, 5.0]),
            choice.choice([0.0, 0.2, 3.0]),
            choice.choice([0.0, 0.5, 1.0]),
        )


class Restarting(OverMemory):
    """The group."""

    def __init__(self, seed: int) -> None:
        super().__init__(seed, Restarts, each_mode(seed))
        assert isinstance(self.trouble, Restarts)
        self.restarts, self.is_calm = self.trouble, True
        self.name = ''  # of the node
        self.stopped: Counter[tuple[str, str]] = Counter()  # by member, and whether the node is live
        self.sessions = 0

    def stops(self, member: Member, stopped: frozenset[int]) -> None:
        super().stops(member, stopped)
        if self.name and member.name != self.name:
            self.stopped[member.name, 'come' if self.name in self.store.held() else 'gone'] += 1

    def run(self) -> None:
        for name in self.store.epoch.settings.names:
            self.begin(name)
        self.become_stable()
        self.name = self.choice.choice(self.store.epoch.settings.names)
        self.end_session()
        self.live(self.now + FOR * TTL)
        for (name, what), times in self.stopped.items():
            self.happened[f'work stops because another node has {what}'] += times
            if times > MOST:
                why = f'because {self.name} has {what}, in {self.sessions} sessions'
                raise Wrong(f'{name} stops work {times} times {why}')
        self.happened['a short session'] += self.sessions
        self.name = ''
        self.become_stable()

    def process(self) -> Member | None:
        """The process of the node."""
        return next((member for member in self.alive() if member.name == self.name), None)

    def end_session(self) -> None:
        """It dies or leaves."""
        process = self.process()
        if process is not None:
            process.leave() if self.choice.random() < self.restarts.leaving else process.die()
        self.after(self.some(self.restarts.gap) + TTL // 100, self.begin_session)

    def begin_session(self) -> None:
        if not self.name:
            return
        if self.process() is not None:
            self.after(TTL // 100, self.begin_session)
            return
        self.sessions += 1
        self.begin(self.name)
        self.after(self.some(self.restarts.length) + TTL // 100, self.end_session)


class Returns(Restarts):
    """Nothing else goes wrong, in a group that has more nodes than that one and the one whose member forgets it."""

    def __init__(self, choice: random.Random) -> None:
        super().__init__(choice)
        self.nodes_least = 3


class Forgetful(OverMemory):
    """A node that comes back a few times, and a member that starts anew, so that it doesn't remember that. It admits
    the node at once, and stops what moves to it. The others would admit the node much later. What moves must not stand
    still until then."""

    def __init__(self, seed: int) -> None:
        super().__init__(seed, Returns, each_mode(seed))
        self.is_calm = True
        self.still: Counter[int] = Counter()  # for how many hundredths of a ttl nobody has worked on each partition
        self.longest = 0  # of these

    def run(self) -> None:
        names = self.store.epoch.settings.names
        for each in names:
            self.begin(each)
        self.become_stable()
        name, other = self.choice.sample(names, 2)
        forgetful = other if name == names[-1] or self.choice.random() < 0.3 else names[-1]  # mostly the highest
        for _ in range(RETURNS):
            self.return_once(name)
            self.live(self.now + self.between(0.05, 0.8))
        is_first = self.choice.random() < 0.6  # whether it forgets before the node comes once more
        self.return_once(forgetful if is_first else name)
        self.live(self.now + self.between(1.0, 2.0))
        self.return_once(name if is_first else forgetful)
        self.watch()
        self.become_stable()

    def return_once(self, name: str) -> None:
        """The process of a node dies, and another one comes after the others have rebalanced."""
        next(member for member in self.alive() if member.name == name).die()
        self.live(self.now + 2 * TTL)
        self.begin(name)

    def watch(self) -> None:
        """For as long as somebody might wait for the others to admit the node, no work stands still for long."""
        for _ in range(12 * 100):
            self.live(self.now + TTL // 100)
            worked = {partition for process in self.processes() for partition in process.works}
            for partition in range(self.store.epoch.settings.setup.partitions):
                self.still[partition] = 0 if partition in worked else self.still[partition] + 1
                self.longest = max(self.longest, self.still[partition])
        self.happened['hundredths of a ttl for which work stands still at most'] += self.longest
        if self.longest > STILL * 100:
            raise Wrong(f'for {self.longest / 100} ttl nobody works on a partition')
