"""Tests of the memory that the library holds for this package: it is given back."""
from __future__ import annotations

import os
import unittest
from collections.abc import Callable
from pathlib import Path

import bully
from bully import Agent, NotLearned, Replica, Setup, check, plan_table
from .traces import LARGEST, TWO


def resident_bytes() -> int:
    """How much memory this process has in use."""
    pages = int(Path('/proc/self/statm').read_text().split()[1])
    return pages * os.sysconf('SC_PAGE_SIZE')


class Memory(unittest.TestCase):
    """A process doesn't grow by what it calls."""

    def is_steady(self, calls: Callable[[int], object], count: int) -> None:
        """Whether so many rounds of the calls need no more memory than a tenth of them."""
        calls(count // 10)
        before = resident_bytes()
        calls(count)
        self.assertLess(resident_bytes() - before, 2_000_000)

    def test_calls(self) -> None:
        """(The tests of C and Rust make a million.)"""

        def calls(count: int) -> None:
            with Agent(TWO, 1) as agent:
                for _ in range(count):
                    agent.recover()
                    agent.start()
                    agent.request()
                    agent.serve('ask,2,7,1,halt')
                    agent.failed(agent.number)
                    agent.claim()
                    agent.crash()
                    agent.rows()

        self.is_steady(calls, 25_000)

    def test_refusals(self) -> None:
        def calls(count: int) -> None:
            with Agent(TWO, 1) as agent:
                for _ in range(count):
                    with self.assertRaises(bully.IsDown):
                        agent.crash()

        self.is_steady(calls, 20_000)

    def test_agents(self) -> None:
        """Agents that are closed, and agents that are let go."""
        owners = [node for node in range(1, 1025) for _ in range(4)]

        def calls(count: int) -> None:
            for _ in range(count):
                Agent(LARGEST, 1, 0, owners).close()
                Agent(LARGEST, 1, 0, owners)

        self.is_steady(calls, 300)

    def test_replicas(self) -> None:
        """Replicas that are closed, and replicas that are let go."""

        def calls(count: int) -> None:
            header = LARGEST.header()
            for _ in range(count):
                Replica(header).close()
                Replica(header).learn(['recover,1024', 'move,1024'])

        self.is_steady(calls, 300)

    def test_learning(self) -> None:
        """What a replica learns, refuses and offers."""

        def calls(count: int) -> None:
            with Replica('bully,1,2,3') as replica:
                for _ in range(count // 10):
                    replica.learn(['recover,2', 'move,2', 'crash,2'])
                for _ in range(count):
                    replica.recover(2)
                    replica.next(2)
                    with self.assertRaises(NotLearned):
                        replica.learn(['crash,2'])
                    TWO.header()
                    TWO.detailed_header()

        self.is_steady(calls, 20_000)

    def test_tables_and_traces(self) -> None:
        def calls(count: int) -> None:
            for _ in range(count):
                plan_table(Setup(3, 7, weights=(1, 2, 1)), [1, 2, 3], [3, 3, 3, 2, 2, 2, 2])
                check(b'bully,1,2,2\nrecover,1\n')

        self.is_steady(calls, 10_000)
