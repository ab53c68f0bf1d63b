"""Agents that do again what the rows of a trace say, and have to say the same.

A row says which call on which node's agent is made, and what comes of it: the agent's own row, the line of its request
or of its reply, what it is told, its claim. In version 3 all of it has to be said; in versions 1 and 2 less is
compared. Each call that would be refused if it came again comes again, and changes nothing. A node that crashed goes on
by its agent or by a new one. A trace in which a premise of `docs/NODE.md` is broken is done again, too: a request may
run twice, or late, and a reply may be made up."""
from __future__ import annotations

from collections.abc import Callable
from dataclasses import dataclass, field
from functools import partial

import bully
from bully import Agent, Call, Setup, Status, Want

# What a node by itself does in a row that says no more.
ALONE = {'recover': Agent.recover, 'check': Agent.check, 'timeout': Agent.timeout, 'move': Agent.advance}
# What a node wants before a row; and after it, why the same call is refused, and why a check is.
WANTS = {
    'recover': Want.NOTHING, 'check': Want.NOTHING, 'timeout': Want.NOTHING, 'start': Want.START, 'move': Want.MOVE,
    'plan': Want.PLAN,
}  # fmt: skip
AGAIN: dict[str, type[bully.Refused]] = {
    'recover': bully.IsUp, 'crash': bully.IsDown, 'start': bully.SlotBusy, 'plan': bully.NoStep, 'return': bully.NoCall,
    'drop': bully.NoCall,
}  # fmt: skip
CHECK: dict[str, type[bully.Refused]] = {
    'recover': bully.Busy, 'crash': bully.IsDown, 'start': bully.Busy, 'plan': bully.Busy,
}  # fmt: skip


class Differs(Exception):
    """An agent says something else than the trace."""


def hold(what: str, wanted: object, said: object) -> None:
    """Both are the same. Raises Differs."""
    if said != wanted:
        raise Differs(f'{what}: {said}, and {wanted} is wanted')


def refuse(agent: Agent, fault: type[bully.Refused] | None, do: Callable[[], object]) -> None:
    """If there is a fault, the agent refuses so what is done, which changes nothing. Raises Differs, and other
    faults."""
    if fault is None:
        return
    before = (agent.state, agent.rows(), agent.request(), agent.claim())
    try:
        said = do()
    except fault:
        said = fault
    hold('what is refused', (fault, before), (said, (agent.state, agent.rows(), agent.request(), agent.claim())))


@dataclass
class Node:
    """A node's agent, and what it did by the trace: how many events it told, the number of its last call and what that
    was answered, the table that it planned last, its requests, and the row of its call's loss while the return is to
    come."""

    agent: Agent
    events: int = 0
    number: int = 0
    answer: str = 'yes'
    planned: str = ''
    requests: list[str] = field(default_factory=list)
    lost: str = ''

    def reply(self, outcome: str) -> str:
        """The reply to the call under way, by its outcome: of an orphan any that was given; one that never was is made
        up."""
        return f'tell,{self.agent.node},{self.number},{outcome if outcome in ("yes", "no") else self.answer}'

    def end(self, was: Call | None, is_orphan: bool) -> None:
        """The call that the agent had ended. Raises Differs."""
        hold('whether a call was an orphan', is_orphan, was is not None and was.is_orphan)
        hold('a call', (None, None), (self.agent.call, self.agent.request()))
        self.lost = ''


class Replay:
    """The agents of a group, and their log, in which a claim comes after each event."""

    def __init__(self, header: str, prepares: bool = True) -> None:
        """Agents that are all Down. If the nodes of the trace prepared their tables, they are compared, too."""
        fields = [*header.split(','), '', 'clear']
        weights = tuple(map(int, fields[4].split()))
        self.setup = Setup(int(fields[2]), int(fields[3]), weights=weights, keeps=fields[5] == 'keep')
        self.nodes = [Node(Agent(self.setup, number + 1)) for number in range(self.setup.nodes)]
        told = ' '.join(map(str, weights or [1] * self.setup.nodes))
        self.log = [f'bully,3,{self.setup.nodes},{self.setup.partitions},{told},{fields[5]}']
        self.version, self.prepares, self.crashes = int(fields[1]), prepares, 0

    def take(self, row: str) -> None:
        """Does what the row says. Raises Differs, and Refused as the agent does."""
        word, number, *said = row.split(',')
        node = self.nodes[int(number) - 1]
        if word == 'saw':
            self.hold_row(row, node.agent.claim())
        elif word in ALONE:
            self.act(node, word, [row], partial(ALONE[word], node.agent))
        else:
            takes = {
                'start': self.start, 'run': self.run, 'lose': self.lose, 'return': self.come_back, 'drop': self.drop,
                'plan': self.plan, 'crash': self.crash,
            }  # fmt: skip
            takes[word](node, row, said)

    def close(self) -> None:
        """Closes all agents."""
        for node in self.nodes:
            node.agent.close()

    def act(self, node: Node, word: str, rows: list[str], do: Callable[[], object]) -> object:
        """A node does something by itself, or is told what came of its call."""
        agent, wants, call = node.agent, node.agent.wants, node.agent.call
        answer = do()
        hold('what it wants', Want.AWAIT if call else WANTS.get(word, wants), wants)
        self.told(node, rows)
        refuse(agent, AGAIN.get(word), do)
        refuse(agent, CHECK.get(word), agent.check)
        return answer

    def hold_row(self, wanted: str, said: str) -> None:
        """The agent says the row of the trace. Raises Differs."""
        says_less = self.version < 3 and said.startswith(f'{wanted},')
        hold('a row', wanted, wanted if says_less else said)

    def told(self, node: Node, rows: list[str]) -> None:
        """The agent told these rows, and they come into the log."""
        told = node.agent.rows()
        hold('how many rows', len(rows), len(told))
        for wanted, said in zip(rows, told):
            self.hold_row(wanted, said)
        self.count(node, told)

    def count(self, node: Node, rows: list[str]) -> None:
        node.events += len(rows)
        hold('events', node.events, node.agent.events)
        self.log += [*rows, node.agent.claim()]

    def plan(self, node: Node, row: str, said: list[str]) -> None:
        owners = [int(owner) for owner in said[0].split()]
        if self.prepares:
            hold('a table', tuple(owners), node.agent.prepare(node.agent.task))
        self.act(node, 'plan', [row], partial(node.agent.plan, owners))
        node.planned = said[0]

    def start(self, node: Node, row: str, said: list[str]) -> None:
        """The number of a call is how many events its node told before it. What comes of the call before is refused."""
        agent, over, node.number = node.agent, node.number, node.events
        self.act(node, 'start', [row], agent.start)
        refuse(agent, bully.NoCall, partial(agent.failed, over))
        refuse(agent, bully.NoCall, partial(agent.replied, f'tell,{agent.node},{over},yes'))
        kind, callee = agent.rows()[0].split(',')[2:]
        table = f',{node.planned}' if kind == 'ready' else ''
        line, call = agent.request(), agent.call
        hold('a request', f'ask,{agent.node},{node.number},{callee},{kind}{table}', line)
        hold('a call', f'{kind},{callee},False', call and f'{call.kind},{call.callee},{call.is_orphan}')
        hold('a number', node.number, agent.number)
        node.requests.append(line or '')
        node.lost = ''

    def callee(self, line: str) -> Node:
        """Whom the request of this line goes to."""
        return self.nodes[int(line.split(',')[3]) - 1]

    def run(self, caller: Node, row: str, said: list[str]) -> None:
        """The caller's last request that the row may mean runs."""
        meant = f',{said[1]},{said[0]},' if said else ','
        line = next((line for line in reversed(caller.requests) if meant in f'{line},'), None)
        if line is None:
            raise Differs(f'{row}: no such request was sent')
        callee = self.callee(line)
        reply = callee.agent.serve(line)
        self.told(callee, [row])
        number, answer = line.split(',')[2], callee.agent.rows()[0].split(',')[-1]
        hold('a reply', f'tell,{caller.agent.node},{number},{answer}', reply)
        caller.answer = answer

    def lose(self, node: Node, row: str, said: list[str]) -> None:
        """The agent is told so when its call returns. A callee that is Down takes no request."""
        node.lost = row
        callee = self.callee(node.requests[-1]).agent
        if callee.status is Status.DOWN:
            refuse(callee, bully.CalleeDown, partial(callee.serve, node.requests[-1]))

    def come_back(self, node: Node, row: str, said: list[str]) -> None:
        agent, call = node.agent, node.agent.call
        reply = node.reply(said[-1] if said else '')
        do = partial(agent.failed, node.number) if node.lost else partial(agent.replied, reply)
        answer = self.act(node, 'return', [node.lost, row] if node.lost else [row], do)
        hold('what is told', agent.rows()[-1].split(',')[4], str(answer))
        node.end(call, answer is bully.Answer.DISCARDED)

    def drop(self, node: Node, row: str, said: list[str]) -> None:
        call = node.agent.call
        self.act(node, 'drop', [row], node.agent.drop_orphan)
        node.end(call, True)

    def crash(self, node: Node, row: str, said: list[str]) -> None:
        """Of three crashes the first two are the agent's: it goes on, or another one takes its place. In the third it
        just ends, so that somebody else tells the crash, and another one takes its place."""
        self.crashes += 1
        agent, kind, node.lost = node.agent, self.crashes % 3, ''
        if kind != 0:
            self.act(node, 'crash', [row], agent.crash)
        if kind == 1:
            return
        task = agent.task if self.setup.keeps else None
        node.agent = Agent(self.setup, agent.node, node.events + (kind == 0), task)
        agent.close()
        if kind == 0:
            self.count(node, [row])


def replay(trace: str, prepares: bool = True) -> Replay:
    """Agents that did all that the trace says. Raises Differs, and Refused as an agent does."""
    header, *rows = trace.splitlines()
    replayed = Replay(header, prepares)
    for row in rows:
        replayed.take(row)
    return replayed
