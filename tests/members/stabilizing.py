"""A group of members by their rules, over a store and in simulated time: everything that happens follows from a seed.
The stores are logs of the package: `over_memory.py` and `over_etcd.py` have them.

Requests are slow, come long after they were given up, or are lost; answers are lost; members are paused, with their
worker or without it, or the worker alone; they die, leave, join, are cut off, and two processes act for one node at
once; workers end by themselves; logs are soon full; other settings are requested; old epochs are taken away. At each
moment

- no two processes work on one partition, but for one that was paused beyond its lease;
- where rows are appended, or an epoch ends, nobody who holds a lease works, but in a cooperative group on what its node
  keeps by the last plan;
- no worker that wasn't paused uses a token that is lower than another one before it, in a cooperative group on the same
  partition; and no token on a
  partition serves two sessions;
- in a cooperative group nobody who holds a lease works on what the log's last plan doesn't give its node, and nothing
  is stopped for nothing;
- no log has more rows than it may have, and none changes more than 20 times within a ttl.

Then there is no more trouble: the group must become stable, and stay so, with the settings that were requested last
and with each partition worked on, and the log of each epoch must be lawful.
"""
from __future__ import annotations

import heapq
import random
from collections import Counter
from collections.abc import Callable, Sequence
from functools import partial
from typing import NamedTuple

from bully import Replica, Setup, check
from bully.core import Ask, Promise, Session
from bully.epochs import Opening, Token
from bully.settings import Settings
from .driven import NAMES, Member, Wrong
from .expected import last_table
from .simulated_store import Epoch, LogStore, StoreMaker, table_of
from .rebalanced import fewest, is_stable, moves
from .trouble import OFTEN, STABLE_WITHIN, TROUBLE_FOR, TTL, Trouble
from .working import KINDS, Action, SimulatedProcess, Talk, Unit


NEVER = 2**63  # nanoseconds


class Mode(NamedTuple):
    """Whether a group is cooperative, and the kind of its workers; None for what follows from the seed."""

    is_cooperative: bool | None = None
    kind: str | None = None

    def of_seed(self, seed: int) -> tuple[bool, str]:
        choice = random.Random(f'{seed} mode')
        is_cooperative, kind = choice.random() < 0.5, choice.choice(sorted(KINDS))
        return is_cooperative if self.is_cooperative is None else self.is_cooperative, self.kind or kind


def each_mode(seed: int) -> Mode:
    """One mode after the other."""
    return Mode(seed % 2 == 0, sorted(KINDS)[seed // 2 % len(KINDS)])


def owned_by(table: Sequence[int], names: Sequence[str]) -> dict[str, frozenset[int]]:
    """What a table gives the nodes of these names."""
    found: dict[str, list[int]] = {}
    for partition, owner in enumerate(table):
        found.setdefault(names[owner - 1], []).append(partition)
    return {name: frozenset(partitions) for name, partitions in found.items()}


class Simulation:
    """One group, over the store that `store` makes."""

    member: type[Member] = Member

    def __init__(self, seed: int, store: StoreMaker, trouble: type[Trouble] = Trouble, mode: Mode = Mode()) -> None:
        self.choice = random.Random(seed)
        self.trouble = trouble(self.choice)
        self.is_cooperative, kind = mode.of_seed(seed)
        # (whether members take steps while they wait for an answer)
        self.steps_meanwhile = random.Random(f'{seed} steps').random() < 0.3
        self.kind, self.mode = KINDS[kind], f'{"cooperative" if self.is_cooperative else "eager"}, {kind}'
        self.now, self.count, self.is_calm, self.ttl = 0, 0, False, TTL
        self.events: list[tuple[int, int, Action]] = []
        self.store: LogStore = store(self.opening(), lambda: self.now)
        self.wanted: Settings | None = None  # the settings that were requested last, unless the request was taken back
        self.members: list[Member] = []
        self.begun = 0  # how many there were
        self.happened: Counter[str] = Counter()
        self.number, self.rows = self.store.epoch.number, 0  # of the current epoch, and its rows, at the last change
        self.changes: list[int] = []  # when they were, within the last ttl
        self.table: tuple[int, ...] = ()  # of the log's last plan, unless all nodes are down by then
        self.plan: dict[str, frozenset[int]] = {}  # what that gives the nodes, by name
        self.units: set[Unit] = set()  # that there are
        self.highest: dict[int, tuple[Token, Session]] = {}  # of each partition: the token used last, and whose
        self.fence = Token(0)  # the highest token that was used
        self.promised: set[tuple[Session, Promise]] = set()  # what sessions have asked to promise
        self.asked: set[Promise] = set()  # where somebody who couldn't know of a pause has asked to append
        self.halted_at = NEVER  # when the pause began

    # Chance and time.

    def some(self, most: float) -> int:
        """A span of so much of a ttl at most."""
        return int(self.choice.random() * most * self.ttl)

    def between(self, least: float, most: float) -> int:
        return int(self.choice.uniform(least, most) * self.ttl)

    def happens(self, what: str, share: float) -> bool:
        does = not self.is_calm and share > 0 and self.choice.random() < share
        self.happened[what] += does
        return does

    def trip(self, ask: Ask | None = None) -> int:
        is_slowest = ask is not None and ask.request is self.trouble.slowest
        if self.happens('a request or an answer is slow', 0.5 if is_slowest else self.trouble.slow):
            return self.some(self.choice.choice([0.3, 1.0, 4.0]))
        return self.some(self.trouble.trip)

    def lease(self) -> int:
        """How long a lease lasts from now on."""
        ttl = self.ttl + self.some(self.trouble.late)
        self.after(ttl, self.tell_all)
        return ttl

    def settings(self) -> Settings:
        names = tuple(self.choice.sample(NAMES, self.choice.randint(self.trouble.nodes_least, self.trouble.nodes)))
        weights = tuple(self.choice.randint(1, 3) for _ in names)
        return Settings(
            Setup(len(names), self.choice.choice([3, 12, 20]), weights=weights, keeps=self.choice.random() < 0.3), names
        )

    def opening(self) -> Opening:
        settings = self.settings()
        limit = min(self.trouble.room * settings.setup.nodes, 1_000_000)
        return Opening.first(settings.setup.header(), settings.names, limit, is_cooperative=self.is_cooperative)

    def after(self, span: int, action: Action) -> None:
        self.count += 1
        heapq.heappush(self.events, (self.now + span, self.count, action))

    def live(self, end: int) -> None:
        while self.events and self.events[0][0] <= end:
            self.now, _, action = heapq.heappop(self.events)
            action()
        self.now = end

    # The store.

    def changed(self, what: str, done: bool) -> bool:
        """Rows were appended, or an epoch has ended, if that is done."""
        self.happened[what] += done
        if not done:
            return False
        self.judge_often()
        epoch = self.store.epoch
        appended = epoch.rows[self.rows :] if epoch.number == self.number else []
        self.number, self.rows, self.table = epoch.number, len(epoch.rows), last_table(appended) or ()
        self.plan = owned_by(self.table, epoch.opening.names)
        for process in self.processes():
            may_work = self.owned(process) if self.is_cooperative else frozenset()
            if process.works and self.holds(process):
                self.happened['work goes on over a change'] += 1
                if not process.works <= may_work:
                    raise Wrong(f'{process.worker.member} is live and works at {what} on what it may not keep')
        if len(epoch.rows) > epoch.opening.limit:
            raise Wrong(f'the log has {len(epoch.rows)} rows of {epoch.opening.limit}')
        return True

    def judge_often(self) -> None:
        """Members that disagree on what is due would change the log again and again."""
        self.changes = [moment for moment in self.changes if self.now - self.ttl <= moment] + [self.now]
        if len(self.changes) > OFTEN:
            raise Wrong(f'the log changes {len(self.changes)} times within a ttl')

    def processes(self) -> list[SimulatedProcess]:
        """All that work, or may."""
        return [process for member in self.members for process in member.worker.processes]

    def holds(self, process: SimulatedProcess) -> bool:
        return self.store.holds(process.worker.member.name, process.session)

    def owned(self, process: SimulatedProcess) -> frozenset[int]:
        """What the last plan gives its node."""
        return self.plan.get(process.worker.member.name, frozenset())

    def tell(self, member: Member) -> None:
        """It wakes, if what it waits for is there."""
        wait = member.awaited
        if wait is not None and self.store.has_news(wait, member.driver.found):
            member.awaited = None
            member.later(self.some(self.trouble.trip), member.wake)

    def tell_all(self) -> None:
        for member in self.members:
            if not member.is_dead:
                self.tell(member)

    # The resource.

    def begin_unit(self, unit: Unit) -> None:
        member = unit.process.worker.member
        for other in self.units:
            if unit.partitions & other.partitions:
                if not other.was_paused or self.now < other.lease:
                    raise Wrong(f'{member} works on what {other.process.worker.member} works on')
                self.happened['a unit beside one that was paused beyond its lease'] += 1
        if self.holds(unit.process) and not unit.partitions <= self.owned(unit.process):
            raise Wrong(f'{member} is live and works on {sorted(unit.partitions)}, which its node does not own')
        self.units.add(unit)

    def end_unit(self, unit: Unit) -> None:
        self.units.discard(unit)
        for partition in unit.partitions:
            highest, user = self.highest.get(partition, (Token(0), unit.process.session))
            fence = highest if self.is_cooperative else self.fence
            if unit.token < fence:
                self.happened['an old token is refused'] += 1
                if not unit.was_paused:
                    raise Wrong(f'{unit.process.worker.member} was not paused, and works by the old token {unit.token}')
            elif unit.token == highest and user != unit.process.session:
                raise Wrong(f'{unit.process.session} and {user} use partition {partition} by the token {unit.token}')
            else:
                self.highest[partition], self.fence = (unit.token, unit.process.session), max(self.fence, unit.token)
                self.happened['units'] += 1

    # What happens.

    def stops(self, member: Member, stopped: frozenset[int]) -> None:
        """A member stops work on these partitions: in a cooperative group only because they move, or it has to end."""
        self.happened['a member stops work'] += 1
        if self.is_cooperative:
            moving, for_nothing = member.expected.judged(member.rules, self.now, stopped)
            self.happened['partitions are stopped that move'] += len(moving)
            if for_nothing:
                raise Wrong(f'{member} stops {sorted(for_nothing)} for nothing')

    def begin(self, name: str) -> Member | None:
        """A process for the node of that name, if the group has it."""
        opening = self.store.epoch.opening
        if name not in opening.names:
            return None
        self.happened['a process begins'] += 1
        self.begun += 1
        member = self.member(self, name, self.begun, opening)
        self.members.append(member)
        self.after(0, member.go)
        return member

    def alive(self) -> list[Member]:
        return [member for member in self.members if not member.is_dead]

    def often(self, what: str, rate: float, action: Action) -> None:
        """Does that so often in a ttl, while there is trouble."""
        if rate == 0:
            return

        def do() -> None:
            if not self.is_calm:
                self.happened[what] += 1
                action()
                self.after(int(self.choice.expovariate(rate) * self.ttl), do)

        self.after(int(self.choice.expovariate(rate) * self.ttl), do)

    def to_some(self, action: Callable[[Member], None]) -> Action:
        """The same to some member, if there is one."""

        def do() -> None:
            there = self.alive()
            if there:
                action(self.choice.choice(there))

        return do

    def pause(self, member: Member) -> None:
        end = self.now + self.some(self.choice.choice([0.3, 1.0, 3.0]))
        whom = self.choice.choice(['member', 'both', 'both', 'worker'])
        if whom != 'worker':
            member.paused_until = max(member.paused_until, end)
        if whom != 'member':
            member.worker.pause(end)

    def cut(self, member: Member) -> None:
        member.cut_until = self.now + self.some(self.choice.choice([0.3, 1.0, 3.0]))

    def join(self) -> None:
        name = self.choice.choice(self.store.epoch.settings.names)
        is_short = self.choice.random() < self.trouble.short
        member = self.begin_another(name)
        if member is not None and is_short:
            self.after(self.some(0.3), partial(self.end_soon, member, [member.leave]))

    def begin_another(self, name: str) -> Member | None:
        """One more process for the node, if there are not two by now."""
        return self.begin(name) if sum(member.name == name for member in self.alive()) < 2 else None

    def come_back(self, name: str) -> None:
        """A process whose node is drained checks whether that is over."""
        raise NotImplementedError

    def loop(self) -> None:
        """A node comes and goes a few times."""
        name, length = self.choice.choice(self.store.epoch.settings.names), self.choice.choice([0.1, 0.4, 1.5])
        self.come(name, length, self.choice.randint(2, 8))

    def come(self, name: str, length: float, times: int) -> None:
        if self.is_calm or times == 0:
            return
        member = self.begin_another(name)
        if member is not None:
            self.after(self.some(length), partial(self.end_soon, member, [member.die, member.leave]))
        self.after(self.some(2 * length), lambda: self.come(name, length, times - 1))

    def end_soon(self, member: Member, ways: list[Action]) -> None:
        """In one of these ways, if it isn't dead."""
        if not member.is_dead:
            self.choice.choice(ways)()

    def resize(self) -> None:
        self.request_settings(self.settings())
        if self.happens('a request to resize is taken back', self.trouble.withdrawn):
            self.after(self.some(0.3), lambda: self.request_settings(None))

    def request_settings(self, settings: Settings | None) -> None:
        self.store.requested = self.wanted = settings
        self.tell_all()

    def prune(self) -> None:
        self.store.prune()
        self.tell_all()

    def run(self) -> None:
        trouble = self.trouble
        for name in self.store.epoch.settings.names:
            self.after(self.some(self.choice.choice([0.0, 0.1, 2.0])), partial(self.begin, name))
        self.often('a pause', trouble.pauses, self.to_some(self.pause))
        self.often('a death', trouble.deaths, self.to_some(Member.die))
        self.often('a member is told to leave', trouble.leaves, self.to_some(Member.leave))
        self.often('a cut', trouble.cuts, self.to_some(self.cut))
        self.often('a join', trouble.joins, self.join)
        self.often('a loop', trouble.loops, self.loop)
        self.often('a request to resize', trouble.resizes, self.resize)
        self.often('old epochs are taken away', trouble.prunes, self.prune)
        self.live(TROUBLE_FOR * self.ttl)
        self.is_calm = True
        for member in self.members:
            member.paused_until = member.worker.paused_until = member.cut_until = 0
        self.become_stable()
        self.judge()

    def close(self) -> None:
        for member in self.alive():
            member.die()

    def tried(self) -> str | None:
        """Runs it, and closes it. What is wrong with it, if something is."""
        try:
            self.run()
        except Wrong as wrong:
            return f'{wrong}, at {self.now / self.ttl:.3f} ttl'
        finally:
            self.close()
        return None

    # Its end.

    def become_stable(self) -> None:
        """The group becomes stable, and stays so."""
        begun = self.now
        while self.now < begun + STABLE_WITHIN * self.ttl:
            self.live(self.now + self.ttl // 20)
            if all(member.is_leaving for member in self.alive()):
                self.begin(self.choice.choice(self.startable()))
            if self.instability() is None:
                before = self.store.epoch.number, len(self.store.epoch.rows)
                self.live(self.now + 3 * self.ttl)
                if self.instability() is None and before == (self.store.epoch.number, len(self.store.epoch.rows)):
                    return
        raise Wrong(f'not stable: {self.instability()}')

    def startable(self) -> Sequence[str]:
        """The nodes that may take part."""
        return self.store.epoch.settings.names

    def instability(self) -> str | None:
        epoch, held = self.store.epoch, self.store.held()
        if (
            self.store.requested_settings() is not None
            or not self.is_as_wanted(epoch)
            or not set(held) <= set(epoch.settings.names)
        ):
            return f'other settings, or unknown processes: {held}'
        live = [epoch.settings.number(name) for name in held]
        idle = max((lease.promise.offset for lease in held.values() if lease.promise.epoch == epoch.number), default=0)
        with Replica(epoch.opening.header) as replica:
            replica.learn(epoch.rows)
            if not live or not is_stable(replica, live, idle):
                return f'not stable: {held}'
            token, table = Token.of(epoch.number, replica.token or 0), replica.last_table or ()
        works = [(process, each) for process in self.processes() for each in process.works]
        worked = sorted((partition, process.worker.member.node) for process, partition in works)
        are_last = self.is_cooperative and self.kind is not Talk or all(process.token == token for process, _ in works)
        return None if are_last and worked == list(enumerate(table)) else f'worked on are {worked} of {table}'

    def is_as_wanted(self, epoch: Epoch) -> bool:
        wanted = self.wanted
        return wanted is None or epoch.opening.is_of(wanted)

    def judge(self) -> None:
        """The log of each epoch is lawful, and each of its plans moves no more than it must, from the table of the
        epoch before, too."""
        for epoch in self.store.epochs:
            self.judge_epoch(epoch)

    def judge_epoch(self, epoch: Epoch) -> None:
        self.happened['epochs'] += 1
        self.happened['rows'] += len(epoch.rows)
        verdict = check('\n'.join([epoch.opening.header, *epoch.rows, '']))
        if not verdict.is_lawful:
            raise Wrong(f'the log of epoch {epoch.number} is {verdict}')
        with Replica(epoch.opening.header) as replica:
            self.judge_plans(epoch, replica)

    def judge_plans(self, epoch: Epoch, replica: Replica) -> None:
        old = before = epoch.opening.table or None
        for offset in [offset for offset, row in enumerate(epoch.rows) if row.startswith('plan,')]:
            replica.learn(epoch.rows[replica.rows : offset])
            planner, table = int(epoch.rows[offset].split(',')[1]), table_of(epoch.rows[offset])
            members = [*replica.up(planner), planner]
            if moves(table, before) != fewest(epoch.settings.setup, members, before):
                raise Wrong(f'in epoch {epoch.number} {before} goes over to {table} among {members}')
            self.happened['a plan keeps to the epoch before'] += bool(old and before == old)
            before = table
