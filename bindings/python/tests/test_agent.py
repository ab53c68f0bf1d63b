"""Tests of agents. What is wanted comes from `docs/FORMATS.md`, `docs/ALGORITHM.md`, `docs/NODE.md` and
`include/bully.h`."""
from __future__ import annotations

import copy
import pickle
import unittest
from collections.abc import Callable
from contextlib import closing
from pathlib import Path

import bully
from bully import Agent, Answer, Call, CallKind, Setup, Want, check, plan_table
from .replay import replay
from .traces import EXAMPLES, LARGEST, TWO, end_of


def recovered(setup: Setup, node: int) -> Agent:
    agent = Agent(setup, node)
    agent.recover()
    return agent


def led(agent: Agent) -> None:
    """The node goes on until it wants nothing more, all others being Down."""
    while agent.wants is not Want.NOTHING:
        if agent.wants is Want.START:
            agent.start()
            agent.failed(agent.number)
        elif agent.wants is Want.MOVE:
            agent.advance()
        else:
            agent.plan(agent.prepare(agent.task))


class Following(unittest.TestCase):
    """Agents that do what the traces of `examples/` say are what their verdicts say."""

    def test_examples(self) -> None:
        for path in EXAMPLES:
            with self.subTest(path=path.name):
                self.follow(path)

    def follow(self, path: Path) -> None:
        rows, verdict = (each.read_text().splitlines() for each in (path, path.with_suffix('.out')))
        kind, number, *cause = verdict[0].split()
        last = int(number) if kind == 'refused' else len(rows) + 1
        # (there a table is planned that isn't the one with the fewest moves)
        with closing(replay('\n'.join(rows[: last - 1]), prepares=path.name != 'dropped.csv')) as replayed:
            if kind == 'refused':
                with self.assertRaises(getattr(bully, cause[0])):
                    replayed.take(rows[last - 1])
                return
            ends = [end_of(node.agent.state, node.agent.task) for node in replayed.nodes]
            self.assertEqual([str(check('\n'.join(replayed.log))), *ends], verdict)


class Agents(unittest.TestCase):
    """What an agent does and shows."""

    def test_call(self) -> None:
        with recovered(TWO, 1) as caller, recovered(TWO, 2) as callee:
            self.assertIs(caller.wants, Want.START)
            caller.start()
            self.assertEqual(caller.call, Call(CallKind.ARE_YOU_UP, 2, False))
            self.assertEqual((caller.number, caller.wants), (1, Want.AWAIT))
            self.assertEqual(caller.request(), 'ask,1,1,2,are-you-up')
            self.assertEqual(callee.serve('ask,1,1,2,are-you-up'), 'tell,1,1,yes')
            self.assertEqual(callee.rows(), ['run,1,are-you-up,2,yes'])
            self.assertIs(caller.replied('tell,1,1,yes'), Answer.YES)
            self.assertEqual(caller.rows(), ['return,1,are-you-up,2,yes'])
            self.assertEqual((caller.wants, caller.request(), caller.call), (Want.NOTHING, None, None))

    def test_setup(self) -> None:
        with Agent(TWO, 2) as agent:
            self.assertIs(agent.setup, TWO)
            self.assertEqual(agent.node, 2)
            self.assertEqual(repr(agent), '<Agent of node 2, down, 0 events>')
        self.assertEqual(repr(agent), '<Agent closed>')

    def test_largest(self) -> None:
        """Room grows by what the library says that it wants."""
        owners = plan_table(LARGEST, range(1, 1025)).owners
        text = ' '.join(map(str, owners))
        with Agent(LARGEST, 1024, 0, owners) as agent:
            agent.recover()
            self.assertEqual(agent.claim(), f'saw,1024,election,-,-,-,{text}')
            self.assertEqual(agent.task, owners)
            agent.advance()
            while agent.wants is Want.START:
                agent.start()
                agent.replied(f'tell,1024,{agent.number},yes')
            self.assertEqual(agent.up, tuple(range(1, 1024)))
            while agent.coordinator is None or agent.wants is not Want.PLAN:
                self.go_on(agent)
            agent.plan(agent.prepare(agent.task))
            self.assertEqual(agent.rows(), [f'plan,1024,{text}'])
            agent.start()
            self.assertEqual(agent.request(), f'ask,1024,{agent.number},1023,ready,{text}')
            halted = ' '.join(map(str, range(1, 1024)))
            self.assertEqual(agent.claim(), f'saw,1024,reorganization,1024,1024,{halted},{text}')

    def go_on(self, agent: Agent) -> None:
        if agent.wants is Want.MOVE:
            agent.advance()
        else:
            agent.start()
            agent.replied(f'tell,{agent.node},{agent.number},yes')


class AgentFaults(unittest.TestCase):
    """Each exception of an agent's calls, which change nothing then."""

    def expect(self, agent: Agent, fault: type, *calls: Callable[[], object]) -> None:
        for place, call in enumerate(calls):
            before = repr(agent), None if agent.is_closed else (agent.claim(), agent.rows(), agent.call)
            with self.subTest(fault=fault.__name__, place=place), self.assertRaises(fault):
                call()
            after = repr(agent), None if agent.is_closed else (agent.claim(), agent.rows(), agent.call)
            self.assertEqual(before, after)

    def test_open(self) -> None:
        wanted: list[tuple[type, Callable[[], object]]] = [
            (bully.TableLength, lambda: Agent(TWO, 1, 0, [])),  # which isn't None
            (ValueError, lambda: Agent(TWO, 65_537)),
            (ValueError, lambda: Agent(TWO, -1)),
            (ValueError, lambda: Agent(TWO, 1, 2**32)),
            (ValueError, lambda: Agent(TWO, 1, -1)),
            (ValueError, lambda: Agent(TWO, 1, 0, [1, 2, 65_537])),
            (TypeError, lambda: Agent(TWO, '1')),  # type: ignore[arg-type]
            (TypeError, lambda: Agent(TWO, 1, 0.5)),  # type: ignore[arg-type]
            (AttributeError, lambda: Agent((2, 3), 1)),  # type: ignore[arg-type]
        ]
        for place, (fault, call) in enumerate(wanted):
            with self.subTest(place=place, fault=fault.__name__), self.assertRaises(fault):
                call()

    def test_lines(self) -> None:
        """Texts are taken as their bytes are, also one that has none in UTF-8."""
        with recovered(TWO, 1) as agent:
            self.expect(agent, bully.LineWord, lambda: agent.serve('\ud800'), lambda: agent.replied('\u00e9'))
            self.assertEqual(agent.serve(b'ask,2,7,1,halt'), 'tell,2,7,yes')

    def test_wrong_kinds(self) -> None:
        with recovered(TWO, 1) as agent:
            for table in ([2, 2, 65_538], [-1, 2, 2]):
                self.expect(agent, ValueError, lambda: agent.plan(table), lambda: agent.prepare(table))
            self.expect(agent, bully.TableLength, lambda: agent.prepare([]))  # which isn't None
            self.expect(agent, TypeError, lambda: agent.serve(None), lambda: agent.replied(7))  # type: ignore[arg-type]
            self.expect(agent, TypeError, lambda: agent.failed('1'))  # type: ignore[arg-type]
            self.expect(agent, TypeError, lambda: agent.failed(1.0))  # type: ignore[arg-type]
            self.expect(agent, TypeError, lambda: agent.plan(None), lambda: agent.prepare(7))  # type: ignore[arg-type]
            self.expect(agent, ValueError, lambda: agent.failed(-1), lambda: agent.failed(2**32 + 1))
            self.expect(
                agent, TypeError, lambda: copy.copy(agent), lambda: copy.deepcopy(agent), lambda: pickle.dumps(agent)
            )

    def test_closed(self) -> None:
        agent = recovered(TWO, 1)
        agent.close()
        own = (agent.recover, agent.crash, agent.check, agent.timeout, agent.start, agent.advance, agent.drop_orphan)
        self.expect(agent, bully.Closed, *own, agent.close, agent.request, agent.rows, agent.claim, agent.prepare)
        self.expect(agent, bully.Closed, lambda: agent.plan([1, 1, 1]), lambda: agent.serve('ask,2,0,1,halt'))
        self.expect(agent, bully.Closed, lambda: agent.replied('tell,1,1,yes'), lambda: agent.failed(1))
        shows = (
            'state', 'status', 'coordinator', 'halter', 'up', 'task', 'wants', 'call', 'number', 'events', 'generation',
            'node',
        )  # fmt: skip
        for name in shows:
            self.expect(agent, bully.Closed, lambda: getattr(agent, name))
        with self.assertRaises(bully.Closed):
            with agent:
                agent.recover()
