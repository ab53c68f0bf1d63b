"""Members of a simulated group: each has the package's own driver over a log of the package, in simulated time, and its
worker."""
from __future__ import annotations

from collections.abc import Callable
from functools import partial
from typing import TYPE_CHECKING

from bully import shared_log
from bully.adapter import core_opening_of
from bully.core import BackOff, Core, End, Ending, Live, Promise, Reason, Request, Session
from bully.driver import Again, Call, Driver, Note, Result, Start, Step, StopWork, WaitForNews
from bully.epochs import Opening, Token
from .expected import Expected
from .simulated_store import table_of
from .working import Action

if TYPE_CHECKING:
    from .stabilizing import Simulation

NAMES = tuple('abcdefg')
STEPS = 100  # more than a member takes at one moment
CHANGES = {Request.APPEND: 'an append', Request.ROLL_OVER: 'the end of an epoch'}


class Wrong(Exception):
    """What must not be."""


class Member:
    """A process for the node of a name: a driver over a log, and a worker."""

    expects: type[Expected] = Expected

    def __init__(self, simulation: Simulation, name: str, number: int, opening: Opening) -> None:
        self.simulation, self.name, self.number = simulation, name, number
        self.log = self.opened()
        node = opening.names.index(name) + 1
        self.driver = Driver(self.log, opening, node, number, simulation.ttl, simulation.lease)
        self.expected = self.expects(core_opening_of(opening, node), simulation.ttl)
        self.awaited: WaitForNews | None = None
        self.asked: Call | None = None  # what it asks the log
        self.asked_at = 0  # when it asked for something last
        self.snapshot_at = 0  # when it asked for the last snapshot
        self.sure_until = 0  # until when its lease is sure, apart from its rules
        self.is_dead: bool = False
        self.is_leaving = self.is_drained = self.is_frozen = False
        self.paused_until = self.cut_until = self.turn = 0
        self.stepped_at, self.steps = -1, 0  # when it took its last step, and how many at that moment
        self.token = Token(0)  # by which it was told last to work
        self.worker = simulation.kind(self)

    def __repr__(self) -> str:
        return f'process {self.number} of node {self.name}'

    def opened(self) -> shared_log.Log:
        """The log that it asks."""
        raise NotImplementedError

    @property
    def rules(self) -> Core:
        return self.driver.core

    @property
    def epoch(self) -> int:
        return self.driver.opening.epoch

    @property
    def node(self) -> int:
        return self.driver.numbers[self.name]

    @property
    def session(self) -> Session | None:
        """Its session, as far as it knows that it is live."""
        live = self.rules.session
        return live.session if isinstance(live, Live) else None

    @property
    def is_asking(self) -> bool:
        """Whether it waits for an answer."""
        return self.asked is not None

    def soon(self, span: int, action: Action) -> None:
        """After so long; later, if it is paused then; never, if it is dead."""

        def do() -> None:
            paused = self.paused_until - self.simulation.now
            if not self.is_dead:
                self.simulation.after(paused, do) if paused > 0 else action()

        self.simulation.after(span, do)

    def later(self, span: int, action: Action) -> None:
        """The same, if it has done nothing else by then."""
        self.turn += 1
        turn = self.turn
        self.soon(span, lambda: action() if turn == self.turn else None)

    def go(self) -> None:
        if self.simulation.happens('a pause before a step', self.simulation.trouble.pauses / 200):
            self.simulation.pause(self)
        self.later(0, self.take_step)

    def nudge(self) -> None:
        """It goes on; while it waits for an answer only in a group whose members take steps then."""
        if not self.is_asking:
            self.go()
        elif self.simulation.steps_meanwhile:
            self.step_meanwhile(self.turn)

    # Its steps.

    def next(self) -> Step:
        """Its next step. What it says that it works on has all that its worker works on."""
        step = self.driver.next(self.simulation.now)
        working = {partition for process in self.worker.processes for partition in process.works}
        if not working <= set(self.rules.works()):
            raise Wrong(f'{self} works on {sorted(working)}, and its promise would keep {self.rules.works()}')
        return step

    def take_step(self) -> None:
        self.awaited = None
        step = self.next()
        is_same_moment = self.stepped_at == self.simulation.now
        self.steps, self.stepped_at = self.steps + 1 if is_same_moment else 1, self.simulation.now
        if self.steps > STEPS or isinstance(step, (WaitForNews, BackOff)) and step.at_most <= 0:
            raise Wrong(f'{self} does not let time go on: {step}')
        if isinstance(step, Call):
            self.ask(step)
        elif isinstance(step, WaitForNews):
            self.awaited = step
            self.later(step.at_most, self.wake)
            self.simulation.tell(self)
        elif isinstance(step, BackOff):
            self.later(step.at_most, self.go)
        elif isinstance(step, End):
            self.end(step.ending)
        else:
            self.do(step)
            self.go()

    def step_meanwhile(self, turn: int) -> None:
        """Until its request is answered it stops what it may not go on with, or backs off."""
        if turn != self.turn or not self.is_asking:
            return
        step, span = self.next(), 0
        if isinstance(step, BackOff) and step.reason is Reason.ANSWER and step.at_most > 0:
            span = step.at_most
        elif isinstance(step, StopWork):
            self.simulation.happened['work stops before an answer'] += 1
            self.do(step)
        else:
            raise Wrong(f'{self} waits for an answer: {step}')
        self.soon(span, partial(self.step_meanwhile, turn))

    def do(self, step: Again | Note | Start | StopWork) -> None:
        """What takes no time."""
        if isinstance(step, Start):
            self.begin(step)
        elif isinstance(step, StopWork):
            self.simulation.stops(self, step.partitions)
            self.worker.stop(self.token, self.driver.working, step.partitions)
        elif isinstance(step, Again):
            self.simulation.happened['a member reads the promises that a snapshot left out'] += 1
        elif self.simulation.trouble.notes_leaves:
            self.simulation.after(self.simulation.trip(), partial(self.note_leaving, step))

    def note_leaving(self, note: Note) -> None:
        """It notes that it leaves."""
        before = self.simulation.store.maintenance
        note.call()
        self.simulation.happened['a member notes that it leaves'] += self.simulation.store.maintenance != before
        self.simulation.tell_all()

    def wake(self) -> None:
        self.awaited = None
        self.driver.woke()
        self.go()

    def begin(self, start: Start) -> None:
        """Its work goes on, and starts on what is added."""
        rows, token = self.simulation.store.epochs[self.epoch - 1].rows, start.owned.token
        if not 0 < token <= self.rules.offset or not rows[token - 1].startswith('plan,'):
            raise Wrong(f'{self} begins by the token {token}, which no plan has that it knows of')
        node = self.node
        partitions = frozenset(partition for partition, owner in enumerate(table_of(rows[token - 1])) if owner == node)
        works = self.driver.working | self.driver.stopping
        if not partitions or self.session is None or not works == partitions == set(start.owned.partitions):
            raise Wrong(f'{self} begins as {self.session}, works on {sorted(works)}, and owns {sorted(partitions)}')
        self.simulation.happened['work goes on by another token'] += partitions != start.added
        self.token = Token.of(self.epoch, token)
        self.worker.session = self.session
        self.worker.start(self.token, partitions, start.added)

    def ended(self, partitions: frozenset[int]) -> None:
        """The work on these has ended, whether or not it was told to."""
        self.driver.ended(partitions)
        self.nudge()

    def leave(self) -> None:
        self.is_leaving = True
        self.driver.leave()
        self.nudge()

    def die(self) -> None:
        self.is_dead = True
        self.worker.die()
        self.rules.close()
        self.expected.close()

    def end(self, ending: Ending) -> None:
        self.simulation.happened[f'a member ends: {ending.value}'] += 1
        if ending is Ending.BROKEN or ending is Ending.LEFT and not self.is_leaving:
            raise Wrong(f'{self} ended: {ending}')
        if any(process.works for process in self.worker.processes):
            raise Wrong(f'{self} ended, and works')
        self.die()
        if self.is_drained:
            self.simulation.after(self.simulation.ttl // 4, partial(self.simulation.come_back, self.name))

    # What it asks of the store.

    def called(self, step: Call) -> Callable[[], Result]:
        """The call, and what is noted of a change."""
        request = step.ask.request
        if request in CHANGES:
            return partial(self.change, CHANGES[request], step)
        return step.call

    def change(self, what: str, step: Call) -> bool:
        """What came of an append, or of the end of an epoch."""
        done, known = bool(step.call()), step.known
        self.simulation.happened['a change that affects nobody'] += done and known is not None and not known.affected
        return self.noted(what, done)

    def noted(self, what: str, done: bool) -> bool:
        """The same, at the moment when it is done."""
        return self.simulation.changed(what, done)

    def note(self, step: Call) -> None:
        """What it asks for, by which it is judged what may be in a pause."""
        ask, simulation, here = step.ask, self.simulation, Promise(self.epoch, step.ask.offset)
        self.turn += 1
        self.asked, self.asked_at = step, simulation.now
        if ask.request in (Request.ACQUIRE, Request.PROMISE):
            self.expected.promised = ask.offset
            simulation.promised.add((ask.session, here))
        if ask.request in CHANGES and not simulation.halted_at <= self.snapshot_at:
            simulation.asked.add(here)
        if ask.request is Request.SNAPSHOT:
            self.snapshot_at = simulation.now
        if simulation.steps_meanwhile:
            self.soon(0, partial(self.step_meanwhile, self.turn))

    def ask(self, step: Call) -> None:
        """Asks the store. The request may come long after it was given up."""
        simulation, trouble, ask, call = self.simulation, self.simulation.trouble, step.ask, self.called(step)
        self.note(step)
        turn = self.turn

        def answer(result: Result | None) -> None:
            if turn == self.turn:
                self.tell(step, result)
                self.go()

        def done() -> None:
            result, is_late = call(), turn != self.turn
            simulation.happened['a request comes after its time'] += is_late
            simulation.happened['a promise comes late'] += is_late and ask.request is Request.PROMISE
            simulation.tell_all()
            if simulation.now >= self.cut_until and not simulation.happens('an answer is lost', trouble.unanswered):
                self.soon(simulation.trip(), lambda: answer(result))

        if simulation.now >= self.cut_until and not simulation.happens('a request is lost', trouble.lost):
            simulation.after(simulation.trip(ask), done)
        if ask.request is Request.RENEW and simulation.happens('a pause with a renewal', trouble.renewal_pauses):
            simulation.pause(self)
        self.soon(int(trouble.patience * simulation.ttl), lambda: answer(None))

    def tell(self, step: Call, result: Result | None) -> None:
        """What became of a request: None, if it wasn't answered in time."""
        self.asked, before = None, self.epoch
        self.driver.answered(self.simulation.now, step.ask, result)
        if result is True and step.ask.request in (Request.ACQUIRE, Request.RENEW):
            self.sure_until = self.asked_at + self.simulation.ttl * 4 // 5
        if isinstance(result, shared_log.Snapshot):
            self.see(result)
        if self.epoch != before:
            self.expected.close()
            self.expected = self.expects(core_opening_of(self.driver.opening, self.node), self.simulation.ttl)
        self.see_sure()
        self.worker.until = self.rules.sure_until

    def see_sure(self) -> None:
        """That its rules know until when its lease is sure."""
        is_live = self.session is not None
        if self.rules.sure_until != (self.sure_until if is_live else 0):
            raise Wrong(f'{self} is sure of its lease until {self.rules.sure_until}, and not until {self.sure_until}')

    def see(self, found: shared_log.Snapshot) -> None:
        """What it must expect by a snapshot, and what it takes the group for."""
        simulation, seen, rules = self.simulation, self.driver.seen, self.rules
        simulation.happened['a snapshot leaves out promises'] += not found.has_promises
        simulation.happened['unknown processes are seen'] += seen.has_unknown
        self.is_frozen = found.epoch == self.epoch and found.is_frozen(self.driver.end)
        if rules.fault is None:
            self.expected.snapshot_read(simulation.now, found.rows, seen)
            self.see_stable(found)
        if found.maintenance.takes_out(self.name, rules.sure_until > 0) and not self.is_leaving:
            self.is_drained = True
            self.leave()

    def see_stable(self, found: shared_log.Snapshot) -> None:
        """That it takes the group for stable exactly if that is so by what it was shown, if it has a lease there."""
        is_there = any(lease.session == self.session for lease in self.driver.seen.leases)
        if is_there and found.epoch == self.epoch and self.rules.is_stable() != self.expected.is_stable():
            raise Wrong(f'{self} takes the group for {"stable" if self.rules.is_stable() else "unstable"}')
