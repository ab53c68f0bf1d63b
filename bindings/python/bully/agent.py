"""One node on its own."""
from __future__ import annotations

import ctypes
from collections.abc import Sequence

from .group import Setup, setup_parts

from .library import (
    STRUCTURES, UINT32_MAX, Opened, call_of, line_of, list_of, node_of, number_of, numbers_of, owners_of, state_of,
)  # fmt: skip
from .values import Answer, Call, Line, State, Status, Want


class Agent(Opened):
    """One node on its own: what a process keeps of it. It has no socket, clock, thread or file. `docs/NODE.md` has the
    loop of a process, and what the program must keep.

    Each call that changes an agent either raises an exception and changes nothing, or is one event of the group; a
    failed call is two. `rows` returns the events for the log. An agent holds memory of the library until it is closed,
    as by `with`."""

    _kind = 'bully_agent'
    _single = 'an agent can not be copied: the copy would be a second agent of the node'

    def __init__(self, setup: Setup, node: int, events: int = 0, task: Sequence[int] | None = None) -> None:
        """The agent of a node that is Down. Its log has so many events, and it has kept this task, if any.

        Raises BadNodes, BadPartitions, BadLimit, BadWeights, BadNode, TableLength, TableOwner, OutOfMemory."""
        super().__init__()
        self._setup = setup
        kept = owners_of(task)
        parts = setup_parts(setup)
        self._call('open', *parts, node_of(node), number_of('events', events, UINT32_MAX), *kept)

    def _words(self) -> str:
        state = self._show()
        return f'of node {state.node}, {Status(state.status)}, {state.events} events'

    # What the node does by itself. Each is one event.

    def recover(self) -> None:
        """The node recovers, and starts an election. Raises Closed, Full, IsUp."""
        self._call('recover')

    def crash(self) -> None:
        """The node crashes, or must stop. Raises Closed, Full, IsDown."""
        self._call('crash')

    def check(self) -> None:
        """The node, which is idle and the coordinator, starts to check the others. Raises Closed, Full, IsDown,
        Busy."""
        self._call('check')

    def timeout(self) -> None:
        """The node, which is idle, has heard nothing for too long. Raises Closed, Full, IsDown, Busy."""
        self._call('timeout')

    def start(self) -> None:
        """The node starts the call that it wants to start. `request` then returns the line to send.

        Raises Closed, Full, IsDown, NoStep, SlotBusy."""
        self._call('start')

    def advance(self) -> None:
        """The node moves on without a call. Raises Closed, Full, IsDown, NoStep, SlotBusy."""
        self._call('advance')

    def plan(self, owners: Sequence[int]) -> None:
        """The node has planned this table, as `prepare` returns one.

        Raises Closed, TableLength, TableOwner, OutOfMemory, Full, IsDown, NoStep, SlotBusy, BadTable."""
        self._call('plan', *numbers_of('an owner', owners))

    def drop_orphan(self) -> None:
        """The node gives up its call, which is an orphan. Raises Closed, Full, IsDown, NoCall, NotOrphan.

        Premise: the request won't run any more."""
        self._call('drop_orphan')

    def prepare(self, old: Sequence[int] | None = None) -> tuple[int, ...]:
        """The table that the node should plan from this old one, usually its `task`. This is no event.

        Raises Closed, TableLength, TableOwner, OutOfMemory."""
        before, count = owners_of(old), self._setup.partitions
        owners = (ctypes.c_uint16 * count)()
        self._call('prepare', *before, owners, count)
        return tuple(owners)

    # Requests and replies. Lines have no line end.

    def request(self) -> str | None:
        """The request of the node's call while that is under way. Send it to the callee, once. This is no event.

        Raises Closed, OutOfMemory."""
        return self._room.text(self._function('request')) or None

    def serve(self, line: Line) -> str:
        """Runs the request of this line at the node, as one event. Returns the line of the reply, for the caller.

        Raises Closed, the LineFaults, OutOfMemory, Full, BadNode, NoCall, CalleeDown. Premise: the request is the
        caller's call, and runs once, while that is under way."""
        return self._room.text(self._function('serve'), *line_of(line))

    def replied(self, line: Line) -> Answer:
        """The node's call returns with the reply of this line, as one event. Returns the node's answer.

        Raises Closed, the LineFaults, Full; NoCall, if this is no reply to the call under way. Premise: the call ran at
        its callee, which answered so."""
        return Answer(self._filled(ctypes.c_uint32(), 'replied', *line_of(line)).value)

    def failed(self, number: int) -> Answer:
        """The node's call of this number failed, and returns, as two events. Returns the node's answer.

        Raises Closed, Full, NoCall. Premise: the callee is Down."""
        return Answer(self._filled(ctypes.c_uint32(), 'failed', number_of('number', number, UINT32_MAX)).value)

    # The node's state. These are no events.

    @property
    def setup(self) -> Setup:
        """The setup of the group."""
        return self._setup

    @property
    def state(self) -> State:
        """The node's state."""
        return state_of(self._show())

    @property
    def node(self) -> int:
        """The node's own number."""
        return int(self._show().node)

    @property
    def status(self) -> Status:
        """The node's status."""
        return Status(self._show().status)

    @property
    def coordinator(self) -> int | None:
        """The node's coordinator, if it has one."""
        return self._show().coordinator or None

    @property
    def halter(self) -> int | None:
        """The node that halted this one last, if any."""
        return self._show().halter or None

    @property
    def up(self) -> tuple[int, ...]:
        """The lower nodes that answered the node's halts, in rising order."""
        return list_of(self._setup.nodes, self._function('up'))

    @property
    def task(self) -> tuple[int, ...] | None:
        """The owner of each partition in the node's task, if it has one."""
        return list_of(self._setup.partitions, self._function('task')) or None

    @property
    def wants(self) -> Want:
        """What the node wants to do next."""
        return Want(self._show().wants)

    @property
    def call(self) -> Call | None:
        """The call that the node has under way, if any."""
        return call_of(self._show())

    @property
    def number(self) -> int:
        """The number of the node's last call. A later call has a higher number."""
        return int(self._show().number)

    @property
    def events(self) -> int:
        """How many events the node has had, including those before it was opened."""
        return int(self._show().events)

    @property
    def generation(self) -> int:
        """How often the node was stopped or crashed since it was opened."""
        return int(self._show().generation)

    def rows(self) -> list[str]:
        """The rows of the node's last step for the log, without line ends. They are of version 3: the header of the log
        is `setup.detailed_header()`.

        Raises Closed, OutOfMemory."""
        return self._room.text(self._function('rows')).splitlines()

    def claim(self) -> str:
        """The row that claims all of the node's vector, without its line end. Raises Closed, OutOfMemory."""
        return self._room.row(self._function('claim'))

    def _show(self) -> ctypes.Structure:
        return self._filled(STRUCTURES['bully_state'](), 'show')
