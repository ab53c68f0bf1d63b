"""Replicas of one log that take turns."""
from __future__ import annotations

from bully import Replica
from .traces import log_of

# What the nodes of even groups of 3 and of 7 partitions append, if all of them recover and then have turns in rising
# order.
ELECTION_OF_TWO = log_of(
    'recover,1', 'recover,2', 'call,1', 'move,2', 'call,2', 'move,2', 'call,2', 'move,2', 'plan,2,1 1 2', 'call,2',
    'move,2',
)  # fmt: skip
ELECTION_OF_THREE = log_of(
    'recover,1', 'recover,2', 'recover,3', 'start,1', 'run,1', 'move,3', 'return,1', 'call,2', 'call,3', 'call,3',
    'move,3', 'call,3', 'call,3', 'move,3', 'plan,3,1 1 1 2 2 3 3', 'call,3', 'call,3', 'move,3',
)  # fmt: skip


def shown(replica: Replica) -> list[object]:
    """All that a replica shows."""
    group = [replica.rows, replica.events, replica.token, replica.planner, replica.last_table]
    setup = [replica.nodes, replica.partitions, replica.keeps]
    nodes = range(1, replica.nodes + 1)
    return [*group, *setup, *((replica.state(node), replica.up(node), replica.task(node)) for node in nodes)]


class Member:
    """A process of one node, with its replica of a log, to which it appends a row after all rows that it read, or not
    at all."""

    def __init__(self, header: str, log: list[str], node: int) -> None:
        self.replica, self.log, self.node = Replica(header), log, node

    def read(self) -> Replica:
        """The replica, once it learned the rows that are new."""
        self.replica.learn(self.log[self.replica.rows :])
        return self.replica

    def append(self, *rows: str) -> bool:
        """Whether these rows are in the log now: they aren't if another row comes after what was read."""
        if self.replica.rows != len(self.log):
            return False
        self.log += rows
        return True

    def turn(self) -> bool:
        """Whether the node has something to do by itself, which is in the log then."""
        row = self.read().next(self.node)
        return row is not None and self.append(row)


def take_turns(*members: Member) -> None:
    """The members have turns, each one row, in their order, until all of them rest."""
    while any([member.turn() for member in members]):
        pass
