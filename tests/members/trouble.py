"""What goes wrong with groups, and how often."""
from __future__ import annotations

import random

from bully.core import Request

TTL = 1_000_000_000
TROUBLE_FOR, STABLE_WITHIN = 16, 25  # ttl
OFTEN = 20  # changes of the log within a ttl, which are never as many

TROUBLES = (
    'a pause',
    'a pause before a step',
    'a pause with a renewal',
    'a death',
    'a cut',
    'a join',
    'a loop',
    'a member is told to leave',
    'a worker ends by itself',
    'a request is lost',
    'an answer is lost',
    'a request or an answer is slow',
    'a request comes after its time',
    'a request to resize',
    'a request to resize is taken back',
    'old epochs are taken away',
    'the end of an epoch',
    'an append',
    'unknown processes are seen',
    'an old token is refused',
    'a unit beside one that was paused beyond its lease',
    'a plan keeps to the epoch before',
    'a member ends: left',
    'a member ends: not there',
    'a message of a worker is late',
    'a promise comes late',
    'a member notes that it leaves',
    'work stops before an answer',
)
TROUBLES_OF_COOPERATIVE = (
    'work goes on over a change',
    'work goes on by another token',
    'a change that affects nobody',
    'partitions are stopped that move',
    'a process starts anew',
    'a worker is paused while it starts anew',
    'the start of a process is called off',
)


class Trouble:
    """How much of each kind, by the seed: shares of requests, steps or units; or how often in a ttl."""

    def __init__(self, choice: random.Random) -> None:
        def some(most: float) -> float:
            return choice.choice([0.0, 0.3, 1.0]) * most

        self.lost, self.unanswered, self.slow = some(0.1), some(0.1), some(0.3)
        self.pauses, self.deaths, self.leaves, self.cuts = some(0.6), some(0.6), some(0.4), some(0.3)
        self.joins, self.short = 1.0, 0.0  # the share of who joins that leaves again soon
        self.unit = 0.19  # of a ttl, which a unit of work takes at most
        self.loops = some(0.2)  # of one node that comes and goes again and again
        self.ends = some(0.02)  # units after which a worker ends by itself
        self.resizes, self.prunes = some(0.3), some(0.5)  # requests to resize, and old epochs that are removed
        self.drains = self.halts = 0.0  # nodes that are drained, and groups that are paused
        self.notes_leaves = choice.random() < 0.5  # whether members that leave note it
        self.late_messages, self.restart_pauses = some(0.1), some(0.5)  # of messages of workers, and of starts anew
        self.room = choice.choice([22, 22, 26, 40, 10_000])  # rows of an epoch, for each node
        self.late = some(0.3)  # by how much of a ttl a lease ends late at most
        self.trip = choice.choice([0.0, 0.002, 0.002, 0.02, 0.02])
        self.patience = choice.choice([0.2, 0.2, 1.0, 3.0])  # how long a member waits for an answer
        self.nodes_least, self.nodes = 1, choice.choice([6, 6, 2])  # at most
        self.withdrawn = choice.choice([0.0, 0.7])  # the share of requests to resize that are taken back soon
        kinds = [None, None, Request.ACQUIRE, Request.RENEW, Request.PROMISE, Request.APPEND]
        self.slowest: Request | None = choice.choice(kinds)  # half the requests of this kind are slow
        self.renewal_pauses = some(0.1)  # how many renewals a pause comes with
        if choice.random() < 0.25:  # many come and go at once
            self.deaths, self.joins, self.leaves, self.slow, self.short = 0.3, 3.0, 0.0, 0.3, 0.7
        elif (
            choice.random() < 0.3
        ):  # all is well but for these, for requests to resize that are taken back, and for slow requests of one kind
            self.deaths, self.joins, self.leaves, self.cuts, self.short = 0.3, 1.0, 0.0, 0.0, choice.choice([0.0, 0.7])
            self.lost, self.unanswered, self.slow, self.resizes, self.withdrawn = (
                0.0, 0.0, 0.1, choice.choice([0.0, 1.5]), 0.9,
            )  # fmt: skip
            self.nodes, self.slowest = choice.choice([1, 2, 3]), choice.choice([Request.ACQUIRE, Request.PROMISE])
            self.patience = choice.choice([0.2, 3.0])


class Epochs(Trouble):
    """Logs are soon full, groups are resized, and old epochs are taken away."""

    def __init__(self, choice: random.Random) -> None:
        super().__init__(choice)
        self.room = choice.choice([22, 22, 26])
        self.resizes, self.withdrawn = choice.choice([0.5, 1.5]), choice.choice([0.0, 0.3])
        self.prunes = choice.choice([0.3, 1.0])


class Maintained(Trouble):
    """Nodes are drained, and groups are paused."""

    def __init__(self, choice: random.Random) -> None:
        super().__init__(choice)
        self.drains, self.halts = choice.choice([0.0, 0.5, 1.0]), choice.choice([0.3, 0.3, 1.0])
        self.notes_leaves = True


class SlowAcquires(Trouble):
    """All is well but that processes of one node come and go, and half the requests to acquire a lease are slow."""

    def __init__(self, choice: random.Random) -> None:
        super().__init__(choice)
        self.lost = (
            self.unanswered
        ) = self.slow = self.cuts = self.pauses = self.ends = self.resizes = self.renewal_pauses = 0.0
        self.deaths, self.leaves, self.joins, self.short = 0.7, 0.0, 0.7, 0.0
        self.nodes, self.slowest, self.trip, self.patience, self.room = 1, Request.ACQUIRE, 0.002, 3.0, 10_000


class SlowPromises(SlowAcquires):
    """All is well but that processes of a few nodes come and go, and half the promises are slow."""

    def __init__(self, choice: random.Random) -> None:
        super().__init__(choice)
        self.nodes, self.slowest, self.deaths, self.leaves, self.joins, self.short = (
            3, Request.PROMISE, 0.3, 0.3, 2.0, 0.3,
        )  # fmt: skip


BY_NAME: dict[str, type[Trouble]] = {
    each.__name__: each for each in (Trouble, Epochs, Maintained, SlowAcquires, SlowPromises)
}
