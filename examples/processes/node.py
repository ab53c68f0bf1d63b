#!/usr/bin/env python3
"""One node in a process of its own. `cluster.py`, its supervisor, starts it; `README.md` says how both keep the
premises.

    node.py '{"supervisor": .., "port": .., "node": .., "life": .., "events": .., "nodes": .., "partitions": ..,
    "says_all": .., "bug": ..}'

The process does one thing at a time: it obeys an order of the supervisor, or takes a step that its node wants, or
serves a request, or takes a reply, or ticks. Each step is told to the supervisor, and what follows from it leaves only
once that wrote it. """
import collections
import ctypes
import json
import os
import random
import selectors
import signal
import sys
import time
from pathlib import Path
from typing import Any, Callable, Deque, Dict, List, NamedTuple, Optional

sys.path.insert(0, str(Path(__file__).resolve().parents[2] / 'bindings' / 'python'))

import bully  # noqa: E402
from bully import Agent, Setup, Status, Want  # noqa: E402
from lines import Lines, connected, listener, port_of  # noqa: E402

BUGS = ('garbled', 'deaf', 'impatient')
TICKS = (0.03, 0.12)  # seconds from one tick to the next
PR_SET_PDEATHSIG = 1  # of Linux: the signal that a process gets once its parent is gone

Order = Dict[str, Any]


class Life(NamedTuple):
    """A process of another node: which one it is of that node, from 1, and where it listens."""

    number: int
    port: int


class Process:
    """The process of one node."""

    def __init__(self, options: Dict[str, Any]) -> None:
        self.life: int = options['life']
        self.says_all: bool = options['says_all']
        self.bug: Optional[str] = options['bug']
        self.agent = Agent(Setup(options['nodes'], options['partitions']), options['node'], options['events'])
        self.node: int = options['node']
        self.is_up = False
        self.others: Dict[int, Life] = {}  # those that aren't Down, as far as the supervisor told
        self.ended: Dict[int, int] = {}  # the last life of each node whose end was told
        self.answered: Dict[int, int] = {}  # the last life of each node that replied
        self.callers: Dict[int, Lines] = {}
        self.callees: Dict[int, Lines] = {}
        self.orders: Deque[Order] = collections.deque()
        self.readers = selectors.DefaultSelector()
        self.listener = listener()
        supervisor = connected(options['port'])
        if supervisor is None:
            sys.exit('there is no supervisor')
        self.supervisor = supervisor
        self.readers.register(self.supervisor.connection, selectors.EVENT_READ, self.hear_supervisor)
        self.next_tick = 0.0

    def run(self) -> None:
        """Goes on for as long as the process lives."""
        self.tell({'node': self.node, 'life': self.life, 'port': port_of(self.listener)})
        while True:
            if self.orders:
                self.obey(self.orders.popleft())
            elif not self.is_up or not self.go_on():
                self.wait()

    # ---- The supervisor, and the log

    def tell(self, message: Dict[str, Any]) -> None:
        self.supervisor.send(json.dumps(message))

    def hear_supervisor(self) -> None:
        """What the supervisor orders waits until the step that is under way is done. Nobody acts without a log."""
        lines = self.supervisor.read()
        if lines is None:
            sys.exit()
        self.orders.extend(json.loads(line) for line in lines)

    def log(self, rows: Optional[List[str]] = None, wrong: Optional[int] = None) -> None:
        """Has the supervisor write the rows of the last step, and waits until it did. `wrong` is the place of a row
        that a bug made wrong, if any."""
        rows = self.agent.rows() if rows is None else rows
        if self.says_all and changes_vector(rows[-1]):
            rows.append(self.agent.claim())
        shown = [self.agent.status.name.lower(), self.agent.coordinator]
        self.tell({'rows': rows, 'shows': shown, 'wrong': None if wrong is None else wrong % len(rows)})
        while not self.is_logged():
            self.hear_supervisor()

    def is_logged(self) -> bool:
        for order in self.orders:
            if order['do'] == 'logged':
                self.orders.remove(order)
                return True
        return False

    # ---- What the supervisor orders

    def obey(self, order: Order) -> None:
        obeys: Dict[str, Callable[[Order], None]] = {
            'recover': self.recover,
            'rises': self.other_rises,
            'ended': self.other_ended,
            'down': self.other_down,
        }
        obeys[order['do']](order)
        self.tell({'heard': order['order']})

    def recover(self, _order: Order) -> None:
        self.agent.recover()
        self.log()
        self.is_up = True
        self.tick_later()
        self.readers.register(self.listener, selectors.EVENT_READ, self.meet)

    def other_rises(self, order: Order) -> None:
        """Another node is about to recover. It is Down until this is answered, so a call to it from before has
        failed."""
        self.fail_call_to(order['node'])
        self.others[order['node']] = Life(order['life'], order['port'])

    def other_ended(self, order: Order) -> None:
        """The process of another node is gone. What it sent and wasn't served yet never will be."""
        self.ended[order['node']] = order['life']
        self.forget(self.callers, order['node'])

    def other_down(self, order: Order) -> None:
        """The other node is Down, and the log has its crash. A call to it has failed."""
        self.others.pop(order['node'], None)
        self.forget(self.callees, order['node'])
        self.fail_call_to(order['node'])

    def fail_call_to(self, node: int) -> None:
        call = self.agent.call
        if call is not None and call.callee == node:
            self.agent.failed(self.agent.number)
            self.log()

    def forget(self, connections: Dict[int, Lines], node: int) -> None:
        """Closes the connection with the node, if there is one."""
        lines = connections.pop(node, None)
        if lines is not None:
            self.close(lines)

    def close(self, lines: Lines) -> None:
        self.readers.unregister(lines.connection)
        lines.close()

    # ---- What the node does by itself

    def go_on(self) -> bool:
        """The node does what it wants to do next. Whether it wanted anything."""
        wants = self.agent.wants
        if wants is Want.START:
            self.start()
        elif wants is Want.MOVE:
            self.agent.advance()
            self.log()
        elif wants is Want.PLAN:
            self.agent.plan(self.agent.prepare(self.agent.task))
            self.log()
        else:
            return False
        return True

    def start(self) -> None:
        """The node starts its call, whose request is sent once it is logged. A call to a node that is Down fails."""
        self.agent.start()
        self.log()
        request, call = self.agent.request(), self.agent.call
        assert request is not None and call is not None
        if call.callee not in self.others:
            self.fail_call_to(call.callee)
            return
        callee = self.callees.get(call.callee) or self.call_first(call.callee)
        if callee is not None:
            callee.send(request)
            if self.is_surely_up(call.callee) and self.slips('impatient'):
                self.agent.failed(self.agent.number)
                self.log(wrong=0)

    def call_first(self, node: int) -> Optional[Lines]:
        """A connection to the process of the other node, which begins with whom it is from and to. None where that
        process is gone: the supervisor will tell."""
        life = self.others[node]
        lines = connected(life.port)
        if lines is not None:
            lines.send(f'hello,{self.node},{self.life},{node},{life.number}')
            self.callees[node] = lines
            self.readers.register(lines.connection, selectors.EVENT_READ, lambda: self.hear_callee(node, lines))
        return lines

    def tick_later(self) -> None:
        self.next_tick = time.monotonic() + random.uniform(*TICKS)

    def tick(self) -> None:
        """A coordinator looks after the others, and each other node after its coordinator."""
        self.tick_later()
        leads = self.agent.status is Status.NORMAL and self.agent.coordinator == self.node
        try:
            if leads:
                self.agent.check()
            else:
                self.agent.timeout()
        except bully.Busy:
            return
        self.log()

    # ---- What comes from the others

    def wait(self) -> None:
        """Waits for what comes next, or for the next tick."""
        left = max(0.0, self.next_tick - time.monotonic()) if self.is_up else None
        # One at a time: while its step is logged, what made another one ready may be read.
        for key, _ in self.readers.select(left)[:1]:
            key.data()
        if self.is_up and time.monotonic() >= self.next_tick:
            self.tick()

    def meet(self) -> None:
        """Another process comes, which says first who it is."""
        connection, _ = self.listener.accept()
        lines = Lines(connection)
        self.readers.register(connection, selectors.EVENT_READ, lambda: self.hear_stranger(lines))

    def hear_stranger(self, lines: Lines) -> None:
        came = lines.read()
        if came == []:
            return
        caller = self.caller_by(came[0]) if came else None
        if came is None or caller is None:
            self.close(lines)
            return
        self.forget(self.callers, caller)
        self.callers[caller] = lines
        self.readers.modify(lines.connection, selectors.EVENT_READ, lambda: self.hear_caller(caller, lines))
        self.serve(caller, lines, came[1:])

    def caller_by(self, hello: str) -> Optional[int]:
        """The node that says hello so, where that comes from its process of now and goes to this one."""
        for caller, life in self.others.items():
            is_its = hello == f'hello,{caller},{life.number},{self.node},{self.life}'
            if is_its and self.ended.get(caller) != life.number:
                return caller
        return None

    def hear_caller(self, caller: int, lines: Lines) -> None:
        came = lines.read()
        if came is None:
            self.forget(self.callers, caller)
        else:
            self.serve(caller, lines, came)

    def serve(self, caller: int, lines: Lines, requests: List[str]) -> None:
        """The requests run, and each reply is sent once its run is logged."""
        for request in requests:
            lines.send(self.served(caller, request))

    def served(self, caller: int, request: str) -> str:
        _, _, number, _, call, *owners = request.split(',')
        if (
            call == 'halt'
            and (self.agent.status, self.agent.halter) != (Status.ELECTION, caller)
            and self.slips('deaf')
        ):
            self.log([f'run,{caller},halt,{self.node},yes'], wrong=-1)
            return f'tell,{caller},{number},yes'
        if call == 'ready' and self.follows(caller) and len(set(owners[0].split())) > 1 and self.slips('garbled'):
            reply = self.agent.serve(garbled(request))
            self.log(wrong=-1)
            return reply
        reply = self.agent.serve(request)
        self.log()
        return reply

    def hear_callee(self, callee: int, lines: Lines) -> None:
        """A reply comes. The end of the connection tells nothing: the supervisor will."""
        came = lines.read()
        if came is None:
            self.forget(self.callees, callee)
            return
        for reply in came:
            self.answered[callee] = self.others[callee].number
            try:
                self.agent.replied(reply)
            except bully.NoCall:
                continue
            self.log()

    # ---- Bugs on purpose

    def slips(self, bug: str) -> bool:
        """Whether the process makes its mistake now. It makes one at most."""
        if self.bug != bug:
            return False
        self.bug = None
        return True

    def is_surely_up(self, node: int) -> bool:
        """Whether the log has a recovery of the other node and no crash behind it, whatever comes now."""
        life = self.others[node].number
        return self.answered.get(node) == life and self.ended.get(node) != life

    def follows(self, caller: int) -> bool:
        """Whether a Ready of the caller gives the node its task."""
        return self.agent.status is Status.REORGANIZATION and self.agent.coordinator == caller


def garbled(request: str) -> str:
    """The Ready with another table: one in which another partition has another owner."""
    head, _, owners = request.rpartition(',')
    numbers = owners.split(' ')
    place = next(place for place, owner in enumerate(numbers) if owner != numbers[0])
    numbers[0], numbers[place] = numbers[place], numbers[0]
    return f'{head},{" ".join(numbers)}'


def changes_vector(row: str) -> bool:
    """Whether a claim stands behind such a row, where all is said."""
    word, _, *rest = row.split(',')
    if word == 'run':
        return rest[0] in ('halt', 'new-coordinator', 'ready')
    return word in ('recover', 'move', 'plan') or word == 'return' and rest[0] == 'halt'


def end_with(supervisor: int) -> None:
    """Has the system kill this process once its supervisor is gone, also while it is stopped."""
    if ctypes.CDLL(None, use_errno=True).prctl(PR_SET_PDEATHSIG, signal.SIGKILL) != 0:
        sys.exit('the system tells no process that its supervisor is gone')
    if os.getppid() != supervisor:
        sys.exit('there is no supervisor')


def main() -> None:
    options = json.loads(sys.argv[1])
    end_with(options['supervisor'])
    Process(options).run()


if __name__ == '__main__':
    main()
