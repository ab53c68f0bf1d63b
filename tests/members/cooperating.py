"""Simulates groups whose members follow the proved rules alone, eager and cooperative, over a store as
docs/REBALANCING.md describes it.

    tests/members/run cooperating LIBRARY_FOLDER [--from SEED] [--to SEED | --seed SEED] [--eager | --cooperative]
        [--careless-store]

LIBRARY_FOLDER is what `bin/library` wrote. Each seed is one group: processes are killed, paused, told to leave, and
come back, also again and again; requests and answers are lost or come late; work ends by itself; other settings are
requested; the log is full, and its epoch rolls over. There are no unknown processes. These must not be:

- two processes whose leases are sure work on one partition, or a partition's token falls;
- a member says that it works on less than its process does, so that a promise would keep too little;
- a member asks for something while it awaits an answer, or goes on with work after its lease, though it isn't paused;
- in a cooperative group a member that goes on stops something that the coming table, or in a stable group the last
  plan, doesn't take from it: *for
  nothing*;
- at the end, without trouble, a node doesn't work on exactly what the last plan gives it, by its token.

With `--careless-store` an append is done wherever the log ends at its offset and somebody holds a lease. That must be
enough, because each writer has read a snapshot (`snapshots_suffice`); it isn't if members append too soon. The last
line is 'N passed, M failed'; the exit status is 0 if M is 0, otherwise 1. """
from __future__ import annotations

import argparse
import heapq
import os
import random
import sys
from collections import Counter
from collections.abc import Callable, Sequence
from dataclasses import dataclass, field, replace
from pathlib import Path

from bully.core import (
    Activity,
    Ask,
    BackOff,
    Begin,
    Core,
    CoreOpening,
    End,
    Lease,
    Live,
    Promise,
    Reason,
    Request,
    Seen,
    Session,
    Stop,
    StoreAnswer,
    Until,
    Wait,
)
from counts import Counts
from .expected import Expected, last_table

TTL = 1_000_000_000
PATIENCE, TRIP = TTL * 3 // 10, TTL // 20  # until a request is given up, and what a way to the store takes at most
TROUBLE, QUIET = 12 * TTL, 45 * TTL  # how long there are faults, and how long it may take to come to rest after that
STEPS = 100  # more than a member takes at one moment
ENOUGH = 25  # seeds, among which all of this must happen
TROUBLES = (
    'a process is killed',
    'a process is paused',
    'a member leaves',
    'a member notes that it leaves',
    'a node comes and goes',
    'work ends by itself',
    'other settings are requested',
    'a request is lost',
    'an answer is lost',
    'a request comes late',
    'work stops before an answer',
    'a rebalance',
    'an epoch rolls over',
    'backs off: STOP',
    'backs off: PAUSE',
)
TROUBLES_OF_COOPERATIVE = (
    'work goes on by another token',
    'a rebalance that affects nobody',
    'partitions are stopped that move',
)

Action = Callable[[], None]


class Wrong(Exception):
    """What must not be."""


@dataclass
class Opening:
    """What an epoch starts with."""

    epoch: int
    old: tuple[int, ...] | None


@dataclass
class Store:
    """The log of one epoch, and who holds the leases."""

    nodes: int
    partitions: int
    opening: Opening = field(default_factory=lambda: Opening(1, None))
    rows: list[str] = field(default_factory=list)
    leases: dict[int, tuple[Lease, int]] = field(default_factory=dict)  # until when
    leaving: set[Session] = field(default_factory=set)  # those that have noted that they leave
    has_request: bool = False  # whether other settings are requested

    def expire(self, now: int) -> None:
        self.leases = {node: held for node, held in self.leases.items() if now < held[1]}

    @property
    def end(self) -> Promise:
        return Promise(self.opening.epoch, len(self.rows))

    def found(self) -> tuple[Lease, ...]:
        held = [self.leases[node][0] for node in sorted(self.leases)]
        return tuple(replace(lease, is_leaving=True) if lease.session in self.leaving else lease for lease in held)

    def found_by(self, node: int) -> tuple[Lease, ...]:
        """What a member is shown: its own lease as that of a session that stays."""
        return tuple(self.leases[node][0] if lease.node == node else lease for lease in self.found())

    def acquire(self, node: int, session: Session, end: Promise, now: int) -> bool:
        done = node not in self.leases and end == self.end
        if done:
            self.leases[node] = Lease(node, session, end), now + TTL
        return done

    def of_session(self, node: int, session: Session) -> Lease | None:
        lease = self.leases[node][0] if node in self.leases else None
        return lease if lease is not None and lease.session == session else None

    def promise(self, node: int, session: Session, promise: Promise, kept: tuple[int, ...]) -> bool:
        lease = self.of_session(node, session)
        if lease is not None and promise >= lease.promise:
            self.leases[node] = replace(lease, promise=promise, kept=kept), self.leases[node][1]
        return lease is not None

    def may_change(self, end: Promise, affected: set[int] | None, seen: Sequence[Lease]) -> bool:
        """Whether a change may be made at this end: `affected` are the nodes of which something is compared, or None
        for all; and in a cooperative group `seen` is what the writer knows of leases."""
        compared = [lease for lease, _ in self.leases.values() if affected is None or lease.node in affected]
        ready = all(lease in seen or lease.promise == end and not lease.kept for lease in compared)
        return end == self.end and bool(self.leases) and ready

    def roll_over(self) -> None:
        self.opening = Opening(self.opening.epoch + 1, last_table(self.rows) or self.opening.old)
        self.rows, self.has_request = [], False


@dataclass(eq=False)
class Process:
    """A member, and its work: by which token it works on which partition."""

    node: int
    number: int
    core: Core
    expected: Expected
    works: dict[int, tuple[int, int]] = field(default_factory=dict)
    ending: set[int] = field(default_factory=set)  # the partitions whose work was asked to end
    turn: int = 0
    paused_until: int = 0
    sure_until: int = 0
    is_asking: bool = False
    is_dead: bool = False
    own: Lease | None = None  # its lease, with its last promise that was done
    waits: Wait | None = None
    moment: int = -1
    steps: int = 0
    has_lost: bool = False  # its work has ended by itself


class Group:
    """A simulated group of a seed."""

    def __init__(self, seed: int, is_cooperative: bool, is_careless: bool = False) -> None:
        self.choice, self.is_cooperative, self.is_careless = random.Random(seed), is_cooperative, is_careless
        nodes = self.choice.randint(1, 5)
        self.store = Store(nodes, self.choice.choice([1, nodes, 2 * nodes, 3 * nodes + 1]))
        self.rows_max = 22 * nodes + self.choice.choice([0, 10, 40, 400])
        self.losses = self.choice.choice([0.0, 0.02, 0.1])
        self.loops = self.choice.choice([3 * TTL, 30 * TTL])
        self.now = self.order = self.numbers = self.for_nothing = 0
        self.heap: list[tuple[int, int, Action]] = []
        self.processes: list[Process] = []
        self.happened: Counter[str] = Counter()
        self.highest: dict[int, tuple[int, int]] = {}

    # Time.

    def after(self, span: int, action: Action) -> None:
        self.order += 1
        heapq.heappush(self.heap, (self.now + span, self.order, action))

    def soon(self, process: Process, span: int, action: Action) -> None:
        """... of a process: later if it is paused then, never if it is dead."""

        def do() -> None:
            paused = process.paused_until - self.now
            if not process.is_dead:
                self.after(paused, do) if paused > 0 else action()

        self.after(span, do)

    def run_until(self, end: int) -> None:
        while self.heap and self.heap[0][0] <= end:
            self.now, _, action = heapq.heappop(self.heap)
            self.store.expire(self.now)
            action()
        self.now = end

    def happens(self, what: str, chance: float) -> bool:
        is_so = self.now < TROUBLE and self.choice.random() < chance
        self.happened[what] += is_so
        return is_so

    # Processes.

    def alive(self) -> list[Process]:
        return [process for process in self.processes if not process.is_dead]

    @property
    def header(self) -> str:
        return f'bully,1,{self.store.nodes},{self.store.partitions}'

    def opening(self, node: int) -> CoreOpening:
        start = self.store.opening
        return CoreOpening(self.header, start.epoch, node, self.rows_max, start.old, self.is_cooperative)

    def start(self, node: int) -> None:
        self.numbers += 1
        opening = self.opening(node)
        process = Process(node, self.numbers, Core(opening, self.numbers, TTL), Expected(opening, TTL))
        self.processes.append(process)
        self.go(process)

    def kill(self, process: Process) -> None:
        """Its work goes on as long as its lease is sure."""
        process.is_dead = True
        process.core.close()
        process.expected.close()

    def go(self, process: Process, span: int = 0, waits: Wait | None = None) -> None:
        process.turn += 1
        turn, process.waits = process.turn, waits

        def do() -> None:
            if turn == process.turn:
                if waits is not None:
                    process.core.woke()
                self.step(process)

        self.soon(process, span, do)

    def nudge(self, process: Process) -> None:
        self.await_answer(process, process.turn) if process.is_asking else self.go(process)

    def step(self, process: Process) -> None:
        core, before = process.core, process.core.works()
        step = core.next(self.now)
        left_out = set(process.works) - set(core.works())
        if left_out:
            raise Wrong(f'process {process.number} works on {sorted(left_out)}, which a promise would not keep')
        process.steps, process.moment = process.steps + 1 if process.moment == self.now else 1, self.now
        if process.steps > STEPS or isinstance(step, (Wait, BackOff)) and step.at_most <= 0:
            raise Wrong(f'process {process.number} does not let time go on: {step}')
        if isinstance(step, Ask):
            self.ask(process, step)
        elif isinstance(step, Wait):
            self.go(process, step.at_most, step)
        elif isinstance(step, BackOff):
            self.happened[f'backs off: {step.reason.name}'] += 1
            self.go(process, step.at_most)
        elif isinstance(step, End):
            if process.works or core.works():
                raise Wrong(f'process {process.number} ended, and works on {sorted(process.works)}')
            self.kill(process)
        else:
            self.begin(process, step.token, before) if isinstance(step, Begin) else self.stop(process)
            self.go(process)

    def begin(self, process: Process, token: int, before: tuple[int, ...]) -> None:
        owned, by = process.core.owned(), (process.core.epoch, token)
        if (
            owned is None
            or owned.token != token
            or process.core.works() != owned.partitions
            or not set(before) <= set(owned.partitions)
        ):
            raise Wrong(f'process {process.number} begins {process.core.works()} by {token}, and owns {owned}')
        self.happened['work goes on by another token'] += bool(before)
        for partition in owned.partitions:
            self.see_alone(process, partition)
            if by < self.highest.get(partition, (0, 0)):
                raise Wrong(f'partition {partition} has the token {by} after {self.highest[partition]}')
            self.highest[partition] = process.works[partition] = by

    def stop(self, process: Process) -> None:
        """Work ends some time after that was asked for, and each partition's alone."""
        stopping = {
            partition for partition, activity in enumerate(process.core.activities()) if activity is Activity.STOPPING
        }
        fresh = stopping - process.ending
        self.judge(process, fresh)
        process.ending |= stopping
        slowest = self.choice.choice([TTL // 100, TTL // 4, TTL])
        for partition in sorted(fresh):
            self.soon(process, self.choice.randint(0, slowest), lambda ended=partition: self.end_on(process, ended))  # type: ignore[misc]

    def end_on(self, process: Process, partition: int) -> None:
        process.works.pop(partition, None)
        process.ending.discard(partition)
        process.core.stopped() if not process.works and self.choice.random() < 0.5 else process.core.stopped_on(
            partition
        )
        self.nudge(process)

    def judge(self, process: Process, fresh: set[int]) -> None:
        """Whether the member of a cooperative group stops only what moves, unless its work has ended by itself."""
        if self.is_cooperative and not process.has_lost:
            moving, for_nothing = process.expected.judged(process.core, self.now, fresh)
            self.for_nothing += len(for_nothing)
            self.happened['partitions are stopped that move'] += len(moving)
        process.has_lost = False

    # Requests.

    def ask(self, process: Process, ask: Ask) -> None:
        process.turn += 1
        turn, process.is_asking, asked_at = process.turn, True, self.now
        call = self.called(process, ask)

        def answer(told: object) -> None:
            if turn == process.turn:
                process.is_asking = False
                self.tell(process, ask, told, asked_at)
                self.go(process)

        def done() -> None:
            self.happened['a request comes late'] += turn != process.turn
            told = call()
            self.wake()
            if not self.happens('an answer is lost', self.losses):
                self.soon(process, self.choice.randint(0, TRIP), lambda: answer(told))

        if not self.happens('a request is lost', self.losses):
            slow = self.happens('a request is slow', self.losses)
            self.after(self.choice.randint(0, 20 * TRIP if slow else TRIP), done)
        self.soon(process, PATIENCE, lambda: answer(None))
        self.await_answer(process, turn)

    def await_answer(self, process: Process, turn: int) -> None:
        """Until its request is answered it stops what it may not go on with, or backs off."""
        if turn != process.turn or not process.is_asking:
            return
        step, span = process.core.next(self.now), 0
        if isinstance(step, BackOff) and step.reason is Reason.ANSWER and step.at_most > 0:
            span = step.at_most
        elif isinstance(step, Stop):
            self.happened['work stops before an answer'] += 1
            self.stop(process)
        else:
            raise Wrong(f'process {process.number} awaits an answer: {step}')
        self.soon(process, span, lambda: self.await_answer(process, turn))

    def called(self, process: Process, ask: Ask) -> Callable[[], object]:
        """What the request is at the store, whenever it comes there."""
        store, core, node, session = self.store, process.core, process.node, ask.session
        end, kept = Promise(core.epoch, ask.offset), core.works()
        if ask.request in (Request.ACQUIRE, Request.PROMISE):
            process.expected.promised = ask.offset
        if ask.request is Request.ACQUIRE:
            return lambda: store.acquire(node, session, end, self.now)
        if ask.request is Request.PROMISE:
            return lambda: store.promise(node, session, end, kept)
        if ask.request in (Request.APPEND, Request.ROLL_OVER):
            return self.change(process, ask.request, end)
        if ask.request is Request.SNAPSHOT:
            epoch, offset = core.epoch, core.offset
            return lambda: (store.rows[offset:] if store.opening.epoch == epoch else [], self.snapshot(process))
        if ask.request is Request.FOLLOW:
            return lambda: store.opening

        def keep() -> bool:
            lease = store.of_session(node, session)
            if lease is not None:
                store.leases[node] = lease, self.now + TTL if ask.request is Request.RENEW else self.now
                store.expire(self.now)
            return lease is not None

        return keep

    def snapshot(self, process: Process) -> Seen:
        return Seen(self.store.opening.epoch, self.store.found_by(process.node), has_request=self.store.has_request)

    def known(self, process: Process) -> tuple[Lease, ...]:
        """The leases as it knows them: its own with its last promise that was done, others as its last snapshot found
        them."""
        others = [
            replace(lease, is_leaving=False) for lease in process.expected.seen.leases if lease.node != process.node
        ]
        return (*others, process.own) if process.own is not None else tuple(others)

    def change(self, process: Process, request: Request, end: Promise) -> Callable[[], bool]:
        store, nodes = self.store, range(1, self.store.nodes + 1)
        is_sparing = self.is_cooperative and process.core.ending is None
        affected = {node for node in nodes if process.core.is_affected(node)} if is_sparing else None
        compared = set[int]() if self.is_careless and request is Request.APPEND else affected
        seen = self.known(process) if self.is_cooperative and request is Request.APPEND else ()
        rows = process.core.rebalance() if request is Request.APPEND else []

        def change() -> bool:
            done = store.may_change(end, compared, seen)
            if done and request is Request.APPEND:
                self.happened['a rebalance'] += 1
                self.happened['a rebalance that affects nobody'] += affected == set()
                store.rows += rows
            elif done:
                self.happened['an epoch rolls over'] += 1
                store.roll_over()
            return done

        return change

    def tell(self, process: Process, ask: Ask, told: object, asked_at: int) -> None:
        core = process.core
        if isinstance(told, bool):
            core.answered(self.now, StoreAnswer.DONE if told else StoreAnswer.REFUSED)
            self.note(process, ask, told, asked_at)
        elif isinstance(told, Opening):
            opening = self.opening(process.node)
            if told.epoch > core.epoch:
                process.expected.close()
                process.expected = Expected(opening, TTL)
            core.followed(self.now, opening)
        elif isinstance(told, tuple):
            self.tell_snapshot(process, *told)
        else:
            core.answered(self.now, StoreAnswer.UNANSWERED)
        self.see_sure(process)

    def note(self, process: Process, ask: Ask, done: bool, asked_at: int) -> None:
        """What it knows of its lease by an answer."""
        end = Promise(process.core.epoch, ask.offset)
        if done and ask.request is Request.ACQUIRE:
            process.own = Lease(process.node, ask.session, end)
        if done and ask.request is Request.PROMISE and process.own is not None:
            process.own = replace(process.own, promise=end, kept=process.core.works())
        if done and ask.request in (Request.ACQUIRE, Request.RENEW):
            process.sure_until = asked_at + TTL * 4 // 5
            until = process.sure_until
            self.after(max(0, until - self.now) + 1, lambda: self.see_stopped(process, until))

    def tell_snapshot(self, process: Process, rows: list[str], seen: Seen) -> None:
        core = process.core
        core.learn(rows)
        process.expected.snapshot_read(self.now, rows, seen)
        core.snapshot_read(self.now, seen)
        found = [lease for lease in seen.leases if process.own is not None and lease.session == process.own.session]
        if found and seen.epoch == core.epoch:
            process.own = found[0]
            if core.is_stable() != process.expected.is_stable():
                raise Wrong(
                    f'process {process.number} takes the group for {"stable" if core.is_stable() else "unstable"}'
                )

    # What is judged of its lease.

    def see_sure(self, process: Process) -> None:
        """Until when its lease is sure, and that nobody else works where it does, if it is."""
        if not isinstance(process.core.session, Live):
            process.sure_until, process.own = 0, None
        elif process.core.sure_until != process.sure_until:
            raise Wrong(
                f'the lease of process {process.number} is sure until {process.sure_until}, and not {process.core.sure_until}'
            )
        for partition in process.works if self.now < process.sure_until else ():
            self.see_alone(process, partition)

    def see_alone(self, process: Process, partition: int) -> None:
        for other in self.processes:
            if other is not process and partition in other.works and self.now < other.sure_until:
                raise Wrong(f'processes {process.number} and {other.number} work on partition {partition}')

    def see_stopped(self, process: Process, until: int) -> None:
        """Its lease isn't sure any more, unless it was renewed meanwhile: all of its work was asked to end, unless it
        was paused then."""
        goes_on = set(process.works) - process.ending
        if not process.is_dead and process.sure_until == until and process.paused_until < until and goes_on:
            raise Wrong(f'process {process.number} works on {sorted(goes_on)} after its lease')

    def wake(self) -> None:
        """Ends the waits that are over by what is in the store now."""
        for process in self.alive():
            if process.waits is not None and self.is_over(process, process.waits.until):
                process.waits = None
                self.soon(process, self.choice.randint(0, TRIP), lambda woken=process: self.nudge_awake(woken))  # type: ignore[misc]

    def nudge_awake(self, process: Process) -> None:
        if not process.is_asking:
            process.core.woke()
            self.go(process)

    def is_over(self, process: Process, until: Until) -> bool:
        seen, found = process.expected.seen.leases, self.store.found_by(process.node)
        end = Promise(process.core.epoch, process.core.offset)
        held, holds = ([(lease.session, lease.is_leaving) for lease in leases] for leases in (seen, found))
        if self.store.end != end or held != holds or self.store.has_request != process.expected.seen.has_request:
            return True
        idle, before = (
            {lease.node for lease in leases if lease.promise == end and not lease.kept} for leases in (found, seen)
        )
        over = {
            Until.NEWS: False,
            Until.ANY_IDLE: bool(idle - before),
            Until.ALL_IDLE: len(idle) == len(found),
            Until.PROMISES: seen != found,
        }
        return over[until]

    # Trouble.

    def often(self, span: int, what: str, action: Callable[[Process], None]) -> None:
        def do() -> None:
            if self.now < TROUBLE:
                if not self.alive():
                    self.start_missing()  # since nobody else is there to whom anything happens
                elif self.happens(what, 0.7):
                    action(self.choice.choice(self.alive()))
                self.after(self.choice.randint(span // 2, span), do)

        self.after(self.choice.randint(0, span), do)

    def crash(self, process: Process) -> None:
        self.kill(process)

    def pause(self, process: Process) -> None:
        process.paused_until = self.now + self.choice.choice([TTL // 3, TTL, 3 * TTL])

    def leave(self, process: Process) -> None:
        """It notes that, or not."""
        live = process.core.session
        if isinstance(live, Live) and self.choice.random() < 0.7:
            session = live.session
            self.after(self.choice.randint(0, TRIP), lambda: self.note_leaving(session))
        process.core.leave()
        self.nudge(process)

    def note_leaving(self, session: Session) -> None:
        self.happened['a member notes that it leaves'] += any(lease.session == session for lease in self.store.found())
        self.store.leaving.add(session)
        self.wake()

    def request(self, process: Process) -> None:
        """Other settings are requested, by whomever."""
        self.store.has_request = True
        self.wake()

    def lose(self, process: Process) -> None:
        """Its work ends by itself, on one partition or on all."""
        going = sorted(set(process.works) - process.ending)
        if going and self.choice.random() < 0.5:
            self.end_on(process, going[0])
        elif going:
            token = process.works[going[0]][1]
            process.works.clear()
            process.has_lost = True
            process.core.lost(token)
            self.nudge(process)

    def come_and_go(self, process: Process) -> None:
        """Its node comes and goes a few times, so that those who saw this admit it later than itself does, and who has
        just come."""
        for time in range(self.choice.randint(1, 5)):
            self.after(time * TTL // 4, lambda: self.come_again(process.node))

    def come_again(self, node: int) -> None:
        for process in self.alive():
            if process.node == node:
                self.leave(process)
        self.start(node)

    def start_missing(self) -> None:
        there = {process.node for process in self.alive()}
        for node in range(1, self.store.nodes + 1):
            if node not in there and self.choice.random() < 0.8:
                self.start(node)

    # From the start to the rest.

    def run(self) -> None:
        for node in range(1, self.store.nodes + 1):
            self.after(self.choice.randint(0, TTL), lambda started=node: self.start(started))  # type: ignore[misc]
        for span, what, action in (
            (3 * TTL, 'a process is killed', self.crash),
            (3 * TTL, 'a process is paused', self.pause),
            (6 * TTL, 'a member leaves', self.leave),
            (2 * TTL, 'work ends by itself', self.lose),
            (2 * TTL, 'missing ones start', lambda _: self.start_missing()),
            (20 * TTL, 'other settings are requested', self.request),
            (self.loops, 'a node comes and goes', self.come_and_go),
        ):
            self.often(span, what, action)
        self.run_until(TROUBLE)
        for process in self.alive():
            process.paused_until = self.now
            self.nudge(process)
        self.start_all()
        self.run_until(TROUBLE + QUIET)
        why = self.unrest()
        if why:
            raise Wrong(why)

    def start_all(self) -> None:
        """From now on a process is there for each node, whatever leaves meanwhile."""
        there = {process.node for process in self.alive()}
        for node in range(1, self.store.nodes + 1):
            if node not in there:
                self.start(node)
        if self.now < TROUBLE + 5 * TTL:
            self.after(TTL, self.start_all)

    def unrest(self) -> str:
        """Why it is not at rest; nothing if it is."""
        table = last_table(self.store.rows)
        owners = {process.node: process for process in self.alive() if isinstance(process.core.session, Live)}
        others = [process for process in self.alive() if process not in owners.values()]
        if table is None or sorted(owners) != list(range(1, self.store.nodes + 1)):
            return f'the table is {table}, and nodes {sorted(owners)} are live'
        if any(process.waits is None or process.waits.reason is not Reason.HELD or process.works for process in others):
            return f'second processes are at {[process.waits for process in others]}'
        for node, process in owners.items():
            owned = tuple(partition for partition, owner in enumerate(table) if owner == node)
            by = {(self.store.opening.epoch, process.core.token)} if owned else set()
            works = process.core.works() == owned == tuple(sorted(process.works)) and set(process.works.values()) == by
            if not process.expected.is_stable() or not works:
                return f'node {node} owns {owned} by {by}, and works on {process.works}: {process.waits}'
        return ''

    def close(self) -> None:
        for process in self.alive():
            self.kill(process)


def read_options() -> argparse.Namespace:
    parser = argparse.ArgumentParser(description=__doc__, formatter_class=argparse.RawDescriptionHelpFormatter)
    parser.add_argument('library', type=Path)
    parser.add_argument('--from', type=int, default=1, dest='first')
    parser.add_argument('--to', type=int, default=300)
    parser.add_argument('--seed', type=int)
    parser.add_argument('--eager', action='store_const', const=[False], dest='kinds', default=[False, True])
    parser.add_argument('--cooperative', action='store_const', const=[True], dest='kinds')
    parser.add_argument('--careless-store', action='store_true')
    return parser.parse_args()


def try_seed(group: Group, name: str, counts: Counts) -> None:
    why = ''
    try:
        group.run()
    except Wrong as wrong:
        why = f'{name}, at {group.now / TTL:.3f} ttl: {wrong}'
    finally:
        group.close()
    counts.hold(not why, why)
    if group.is_cooperative:
        counts.hold(not group.for_nothing, f'{name}: {group.for_nothing} partitions were stopped for nothing')


def try_kind(options: argparse.Namespace, is_cooperative: bool, counts: Counts) -> None:
    """Eager groups, or cooperative ones."""
    kind, happened, for_nothing = 'cooperative' if is_cooperative else 'eager', Counter[str](), 0
    seeds = range(options.first, options.to + 1) if options.seed is None else [options.seed]
    for seed in seeds:
        group = Group(seed, is_cooperative, options.careless_store)
        try_seed(group, f'{kind}, seed {seed}', counts)
        happened.update(group.happened)
        for_nothing += group.for_nothing
    for what, count in [*sorted(happened.items()), ('partitions are stopped for nothing', for_nothing)]:
        print(f'{kind}: {count:8} {what}')
    if len(seeds) >= ENOUGH:
        for what in (*TROUBLES, *(TROUBLES_OF_COOPERATIVE if is_cooperative else ())):
            counts.hold(happened[what] > 0, f'{kind}: it never happened: {what}')


def main() -> int:
    options, counts = read_options(), Counts()
    os.environ['BULLY_LIBRARY'] = str(options.library.resolve())
    for is_cooperative in options.kinds:
        try_kind(options, is_cooperative, counts)
    return counts.end()


if __name__ == '__main__':
    sys.exit(main())
