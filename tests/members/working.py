"""The workers of simulated members, of three kinds: one process for all partitions (`whole`), one for each (`each`),
and one that stays over changes and is told of them by lines (`talk`).

A `SimulatedProcess` is what the watchdog runs. A `Worker` is what the member knows of it. Each hears of the other by
messages, which come in order and maybe late. A message about a process that isn't the member's any more is dropped.
"""
from __future__ import annotations

from collections import deque
from collections.abc import Callable, Iterable
from dataclasses import dataclass
from functools import partial
from typing import TYPE_CHECKING, Deque

from bully.core import Session
from bully.epochs import Token

if TYPE_CHECKING:
    from .driven import Member
    from .stabilizing import Simulation

Action = Callable[[], object]


@dataclass(eq=False)
class Unit:
    """A unit of work that a process has surely begun. The lease of its member lasts until `lease`."""

    process: SimulatedProcess
    token: Token
    partitions: frozenset[int]
    lease: int
    was_paused: bool = False


class Line:
    """Messages to whoever does something `soon`: they come in order."""

    def __init__(self, soon: Callable[[int, Action], None]) -> None:
        self.soon, self.messages = soon, deque[Action]()

    def send(self, span: int, message: Action) -> None:
        self.messages.append(message)
        self.soon(span, lambda: self.messages.popleft()())


class SimulatedProcess:
    """A process of a worker: it works in units, one after the other, each on all partitions that it has. Its watchdog
    ends it if it is at work when the lease of its member isn't sure any more, or when its member is dead."""

    def __init__(self, worker: Worker, token: Token, partitions: frozenset[int]) -> None:
        self.worker = worker
        self.simulation: Simulation = worker.simulation
        self.begun_with = partitions
        self.is_told = False  # whether its member has told it to end
        self.token, self.session, self.works = token, worker.session, frozenset[int]()
        self.stops: list[frozenset[int]] = []  # what it was told to stop, and hasn't answered
        self.unit: Unit | None = None
        self.is_gone = False

    def hear_begin(self, token: Token, session: Session, partitions: frozenset[int]) -> None:
        if not self.is_gone:
            self.token, self.session, self.works = token, session, partitions
            self.go()

    def go(self) -> None:
        self.worker.soon(self.simulation.some(0.02), self.next_unit)

    def hear_stop(self, partitions: frozenset[int]) -> None:
        """It stops these after its unit. The watchdog answers for one that is gone."""
        self.stops.append(partitions)
        if self.unit is None:
            self.answer()

    def answer(self) -> None:
        """It has stopped what it was told to stop."""
        for partitions in self.stops:
            self.works = frozenset() if self.worker.stops_all else self.works - partitions
            self.worker.report(partial(self.worker.stopped, self))
        self.stops = []
        if not self.worker.stays:
            self.end()

    def next_unit(self) -> None:
        if self.is_gone or self.unit is not None:
            return
        simulation, worker = self.simulation, self.worker
        is_late = simulation.now >= worker.until and bool(self.works)
        if (
            worker.member.is_dead
            or is_late
            or self.works
            and simulation.happens('a worker ends by itself', simulation.trouble.ends)
        ):
            self.end()
        elif self.works:
            self.unit = Unit(self, self.token, self.works, worker.until + simulation.ttl // 5)
            simulation.begin_unit(self.unit)
            simulation.after(simulation.between(0.004, simulation.trouble.unit), self.end_unit)

    def end_unit(self) -> None:
        now, paused_until = self.simulation.now, self.worker.paused_until
        if self.unit is not None and now < paused_until:
            self.unit.was_paused = True
            self.simulation.after(paused_until - now, self.end_unit)
        elif self.unit is not None:
            self.simulation.end_unit(self.unit)
            self.unit = None
            if self.stops:
                self.answer()
            self.worker.soon(self.simulation.some(0.01), self.next_unit)

    def end(self) -> None:
        """Nothing is left of it."""
        if self.unit is not None:
            self.simulation.units.discard(self.unit)
        self.is_gone, self.works, self.unit = True, frozenset(), None
        self.worker.processes.discard(self)
        self.worker.report(partial(self.worker.gone, self))


class Worker:
    """The processes of a member that work, as the member starts and stops them."""

    process_type = SimulatedProcess
    stays = False  # whether a process stays when it has stopped something
    stops_all = False  # whether a process that stays stops all whatever it has to stop

    def __init__(self, member: Member) -> None:
        self.member = member
        self.simulation: Simulation = member.simulation
        self.session: Session = Session(0, 0)
        self.until: int = 0  # it ends by then, unless it is idle
        self.paused_until: int = 0
        self.processes: set[SimulatedProcess] = set()  # that there are
        self.to_member, self.to_watchdog = Line(member.soon), Line(self.soon)

    # What the member asks for.

    def start(self, token: Token, owned: frozenset[int], added: frozenset[int]) -> None:
        """The node owns these partitions by this token, of which some were added."""
        raise NotImplementedError

    def stop(self, token: Token, rest: frozenset[int], stopped: frozenset[int]) -> None:
        """Work on some partitions must stop. The rest is left, by this token."""
        raise NotImplementedError

    def run(self, token: Token, partitions: frozenset[int]) -> SimulatedProcess:
        """Starts a process."""
        process = self.process_type(self, token, partitions)
        self.processes.add(process)
        self.tell(partial(process.hear_begin, token, self.session, partitions))
        return process

    def tell(self, message: Action) -> None:
        self.to_watchdog.send(self.simulation.some(0.005), message)

    # What the member hears.

    def stopped(self, process: SimulatedProcess) -> None:
        """The process has stopped what it was told to stop first."""

    def gone(self, process: SimulatedProcess) -> None:
        """The process is gone, with all that it has started."""
        raise NotImplementedError

    def report(self, message: Action) -> None:
        """A message to the member, which may be late."""
        simulation = self.simulation
        is_late = simulation.happens('a message of a worker is late', simulation.trouble.late_messages)
        self.to_member.send(simulation.some(1.0 if is_late else 0.03), message)

    # What happens to it.

    def pause(self, end: int) -> None:
        self.paused_until = max(self.paused_until, end)
        for process in self.processes:
            if process.unit is not None:
                process.unit.was_paused = True

    def die(self) -> None:
        """The member is dead: the watchdog ends all, unless it is paused. Then each process ends after its unit."""
        if self.paused_until <= self.simulation.now:
            for process in list(self.processes):
                process.end()

    def soon(self, span: int, action: Action) -> None:
        """After so long; later, if it is paused then."""

        def do() -> None:
            paused = self.paused_until - self.simulation.now
            self.simulation.after(paused, do) if paused > 0 else action()

        self.simulation.after(span, do)


class Whole(Worker):
    """One process for all partitions. For other ones it is ended, and starts again with these."""

    def __init__(self, member: Member) -> None:
        super().__init__(member)
        self.process: SimulatedProcess | None = None
        self.wanted = Token(0), frozenset[int]()  # what it is to work on
        self.owed = frozenset[int]()  # the partitions whose end is yet to be reported

    def start(self, token: Token, owned: frozenset[int], added: frozenset[int]) -> None:
        self.wanted = token, owned
        self.change()

    def stop(self, token: Token, rest: frozenset[int], stopped: frozenset[int]) -> None:
        begun_with = self.process.begun_with if self.process is not None else stopped
        self.simulation.happened['the start of a process is called off'] += not stopped <= begun_with
        self.wanted, self.owed = (token, rest), self.owed | stopped
        self.change()

    def change(self) -> None:
        """Its process gets what it is to have, if there is none any more; one that has something else must end
        first."""
        process, (token, wanted) = self.process, self.wanted
        if process is None:
            owed, self.owed = self.owed, frozenset()
            if owed:
                self.member.ended(owed)
            self.process = self.run(token, wanted) if wanted else None
        elif process.begun_with != wanted and not process.is_told:
            process.is_told = True
            self.tell(partial(process.hear_stop, process.begun_with))
            trouble = self.simulation.trouble
            if wanted and self.simulation.happens('a worker is paused while it starts anew', trouble.restart_pauses):
                self.pause(self.simulation.now + self.simulation.some(1.0))

    def gone(self, process: SimulatedProcess) -> None:
        if process is self.process:
            self.process = None
            if process.is_told:
                self.simulation.happened['a process starts anew'] += bool(self.wanted[1])
            else:
                self.wanted, self.owed = (Token(0), frozenset()), self.owed | self.wanted[1]
            self.change()


class Each(Worker):
    """A process for each partition, with the token by which that was started."""

    def __init__(self, member: Member) -> None:
        super().__init__(member)
        self.running: dict[int, SimulatedProcess] = {}

    def start(self, token: Token, owned: frozenset[int], added: frozenset[int]) -> None:
        self.running.update((each, self.run(token, frozenset([each]))) for each in sorted(added))

    def stop(self, token: Token, rest: frozenset[int], stopped: frozenset[int]) -> None:
        for each in sorted(stopped):
            self.tell(partial(self.running[each].hear_stop, frozenset([each])))

    def gone(self, process: SimulatedProcess) -> None:
        (partition,) = process.begun_with
        if self.running.get(partition) is process:
            del self.running[partition]
            self.member.ended(process.begun_with)


class Talk(Worker):
    """A process that stays, and is told by lines what to stop, and all that it has. One that doesn't know that a part
    may be stopped stops all."""

    stays = True

    def __init__(self, member: Member) -> None:
        super().__init__(member)
        self.process: SimulatedProcess | None = None
        self.has = frozenset[int]()  # what it was told to work on, and hasn't stopped
        self.stops: Deque[frozenset[int]] = deque()  # what it has yet to stop, by lines
        self.stops_all = self.simulation.choice.random() < 0.3

    def start(self, token: Token, owned: frozenset[int], added: frozenset[int]) -> None:
        self.has = owned
        if self.process is None:
            self.process = self.run(token, owned)
        else:
            self.tell(partial(self.process.hear_begin, token, self.session, owned))

    def stop(self, token: Token, rest: frozenset[int], stopped: frozenset[int]) -> None:
        assert self.process is not None
        self.stops.append(stopped)
        self.tell(partial(self.process.hear_stop, stopped))

    def stopped(self, process: SimulatedProcess) -> None:
        if process is self.process:
            self.end(self.stops.popleft())

    def gone(self, process: SimulatedProcess) -> None:
        if process is self.process:
            self.process = None
            self.stops.clear()
            self.end(self.has)

    def end(self, partitions: Iterable[int]) -> None:
        ended = frozenset(partitions)
        self.has -= ended
        if ended:
            self.member.ended(ended)


KINDS: dict[str, type[Worker]] = {'whole': Whole, 'each': Each, 'talk': Talk}
