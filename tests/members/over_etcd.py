"""The same groups over `bully.etcd`, and an etcd whose leaders are lost (`cluster.py`).

Each request of a call has its own way, and may be lost, or its answer; the member waits for it as long as
`bully.etcd_client` does, and then asks the next server. A watch reports news late, or not at all. What is
judged is read from etcd's keys as they are.
"""
from __future__ import annotations

import random
from collections import deque
from collections.abc import Callable
from functools import partial
from typing import Deque

from bully import shared_log
from bully.clocks import SECOND
from bully.core import Promise, Request as Asked, Until
from bully.driver import Call, Result, WaitForNews
from bully.encoding import maintenance_of, session_of, unpacked
from bully.epochs import FIRST, Opening
from bully.etcd import WATCH_AGAIN, Part, offset_of, promise_of
from bully.etcd_client import Json, Silent, prefix_end
from bully.maintenance import Maintenance
from bully.settings import Settings
from bully.shared_log import LogError, Unanswered
from .asking import KeptLog, Pending, Request, made, opened
from .cluster import SERVERS, Cluster, Keys, Outcome, Version, Weather, interval, weather_of
from .driven import Member, Wrong
from .simulated_store import Epoch, Lease, LogStore
from .over_memory import OverMemory
from .stabilizing import Mode
from .trouble import Trouble

SHORTEST = 10_000_000  # nanoseconds until somebody asks again
TROUBLES_OF_ETCD = ('a leader is lost', 'a lease of etcd ends', 'a watch reports nothing')


class EtcdStore(LogStore):
    """What is judged of a log in etcd."""

    log: KeptLog

    def __init__(self, cluster: Cluster, opening: Opening) -> None:
        self.cluster = cluster
        self._epochs: list[Epoch] = []
        self.leases: dict[str, Lease] = {}
        self.log = made(cluster, opening)
        self.see([self.log._keys.opening(FIRST)])

    @property
    def epochs(self) -> list[Epoch]:
        return self._epochs

    def below(self, prefix: bytes) -> dict[str, bytes]:
        """The values of all keys with this prefix, by the rest of the key."""
        found = self.cluster.keys.found(prefix, prefix_end(prefix))
        return {key[len(prefix) :].decode(): version.value or b'' for key, version in found}

    def see(self, changed: list[bytes]) -> str | None:
        """Keys have changed, in one transaction. Whether that is an append, or the end of an epoch."""
        keys, what = self.log._keys, None
        for key in changed:
            value = self.cluster.keys.get(key).value
            if value is None:
                continue
            if key.startswith(keys.root + b'opening/'):
                opening = Opening.parse(value.decode())
                if opening.epoch != len(self.epochs) + FIRST:
                    raise Wrong(f'epoch {opening.epoch} begins after {len(self.epochs)}')
                self.epochs.append(Epoch(opening, []))
                what = 'the end of an epoch'
            elif key.startswith(keys.logs):
                here, what = offset_of(key[len(keys.logs) :].decode()), 'an append'
                if here != Promise(self.epoch.number, len(self.epoch.rows)):
                    end = f'offset {len(self.epoch.rows)} of epoch {self.epoch.number}'
                    raise Wrong(f'rows are at {here}, and the log ends at {end}')
                self.epoch.rows.extend(unpacked(value).decode().splitlines())
        prefixes = keys.sessions, keys.promises
        for name in {key[len(prefix) :].decode() for key in changed for prefix in prefixes if key.startswith(prefix)}:
            self.see_lease(name)
        return what

    def see_lease(self, name: str) -> None:
        """The lease of a node has changed."""
        there, keys = self.cluster.keys, self.log._keys
        session, promise = there.get(keys.session(name)).value, there.get(keys.promise(name)).value
        if session is None:
            self.leases.pop(name, None)
        else:
            none = b'%010d/%010d' % (0, 0)
            self.leases[name] = Lease(session_of(session.decode()), *promise_of((promise or none).decode()), 0)

    def held(self) -> dict[str, Lease]:
        return self.leases

    @property
    def maintenance(self) -> Maintenance:
        return maintenance_of(self.log.address, self.cluster.keys.get(self.log._keys.maintenance).value)

    def requested_settings(self) -> Settings | None:
        requested_settings = self.cluster.keys.get(self.log._keys.requested).value
        return None if requested_settings is None else Opening.parse(requested_settings.decode()).settings


class Requests:
    """A call of a log by a member, request by request."""

    def __init__(self, member: EtcdMember, call: Callable[[], Result], tell: Callable[[Result | None], None]) -> None:
        self.member, self.call, self.tell = member, call, tell
        self.simulation, self.asked = member.simulation, member.asked.ask if member.asked is not None else None
        self.client = member.kept.client
        self.journal = self.client.begun()
        self.awaited: Request | None = None

    def go_on(self) -> None:
        """It goes on up to its next request, or to its end."""
        try:
            told: Result | None = self.client.attempt(self.journal, self.call)
        except Pending as pending:
            self.send(pending.request)
            return
        except Unanswered:
            told = None
        except LogError as error:
            raise Wrong(f'{self.member} ends: {error}') from error
        self.tell(told)

    def send(self, request: Request) -> None:
        """It asks a server. What comes too late isn't heard."""
        self.awaited = request
        late = Silent(SERVERS[request.server], 'it did not answer in time', may_be_done=True)
        self.depart(request)
        self.member.soon(self.until(request.end), lambda: self.hear(request, late))

    def until(self, moment: float) -> int:
        return max(SHORTEST, int(moment * SECOND) - self.simulation.now)

    def depart(self, request: Request) -> None:
        simulation, member = self.simulation, self.member
        if simulation.now >= member.cut_until and not simulation.happens('a request is lost', simulation.trouble.lost):
            simulation.after(simulation.trip(self.asked), lambda: self.arrive(request))
        elif simulation.choice.random() < 0.5:  # there is no connection
            silent = Silent(SERVERS[request.server], 'it is not reached', may_be_done=False)
            member.soon(self.until(request.reached), lambda: self.hear(request, silent))

    def arrive(self, request: Request) -> None:
        is_late, is_promise = (
            self.awaited is not request,
            self.asked is not None and self.asked.request is Asked.PROMISE,
        )
        self.simulation.happened['a request comes after its time'] += is_late
        self.simulation.happened['a promise comes late'] += is_late and is_promise
        self.simulation.cluster.receive(
            request.server, request.path, request.told, lambda outcome: self.answer(request, outcome)
        )

    def answer(self, request: Request, outcome: Outcome) -> None:
        """The server answers."""
        simulation = self.simulation
        if simulation.now < self.member.cut_until or simulation.happens(
            'an answer is lost', simulation.trouble.unanswered
        ):
            if simulation.choice.random() < 0.5:
                return
            outcome = Silent(SERVERS[request.server], 'the connection was ended', may_be_done=True)
        self.member.soon(simulation.trip(), lambda: self.hear(request, outcome))

    def hear(self, request: Request, outcome: Outcome) -> None:
        if self.awaited is request:
            self.awaited = None
            self.journal.add(outcome)
            self.go_on()


class EtcdMember(Member):
    """A member whose log is in etcd."""

    simulation: OverEtcd
    request_type: type[Requests] = Requests

    def opened(self) -> shared_log.Log:
        simulation = self.simulation
        return opened(simulation.cluster, simulation.patience / SECOND, self.number % len(SERVERS))

    @property
    def kept(self) -> KeptLog:
        assert isinstance(self.log, KeptLog)
        return self.log

    def noted(self, what: str, done: bool) -> bool:
        return done  # it was, when it was done

    def ask(self, step: Call) -> None:
        call = self.called(step)
        self.note(step)
        turn = self.turn

        def answer(result: Result | None) -> None:
            if turn != self.turn:
                raise Wrong(f'{self} asks twice')
            self.tell(step, result)
            self.go()

        self.request_type(self, call, answer).go_on()
        is_renewal = step.ask.request is Asked.RENEW
        if is_renewal and self.simulation.happens('a pause with a renewal', self.simulation.trouble.renewal_pauses):
            self.simulation.pause(self)


class OverEtcd(OverMemory):
    """A group over an etcd."""

    member: type[Member] = EtcdMember

    def __init__(self, seed: int, trouble: type[Trouble] = Trouble, mode: Mode = Mode()) -> None:
        self.of_etcd = random.Random(f'{seed} etcd')
        self.weather = self.new_weather()
        self.cluster = Cluster(self.of_etcd, self.weather, lambda: self.now / SECOND, self.after_seconds)
        super().__init__(seed, trouble, mode, self.new_store)
        self.ttl = int(self.weather.ttl * SECOND)
        self.patience = min(self.ttl // 5, int(self.trouble.patience * self.ttl))
        self.cluster.changed, self.cluster.ends = self.see_change, self.see_end

    def new_weather(self) -> Weather:
        return weather_of(self.of_etcd)

    def new_store(self, opening: Opening, clock: Callable[[], int]) -> EtcdStore:
        return EtcdStore(self.cluster, opening)

    @property
    def there(self) -> EtcdStore:
        assert isinstance(self.store, EtcdStore)
        return self.store

    def after_seconds(self, span: float, action: Callable[[], None]) -> None:
        self.after(int(span * SECOND), action)

    def lease(self) -> int:
        return self.ttl

    def run(self) -> None:
        self.after_seconds(self.of_etcd.expovariate(self.weather.losses), self.lose_leader)
        super().run()

    def lose_leader(self) -> None:
        """A leader is lost, again and again."""
        if not self.is_calm:
            self.after_seconds(self.of_etcd.expovariate(self.weather.losses), self.lose_leader)
            self.happened['a leader is lost'] += 1
            self.cluster.lose_leader()

    def see_end(self, key: bytes, session: bytes) -> None:
        """A lease of etcd has ended, and with it the lease of a member, which may not be sure of that any more."""
        keys = self.there.log._keys
        if not key.startswith(keys.sessions):
            return
        self.happened['a lease of etcd ends'] += 1
        ended = session_of(session.decode())
        for member in self.members:
            if not member.is_dead and member.session == ended and self.now < member.worker.until:
                raise Wrong(f'the lease of {member} ended, and it is sure for {member.worker.until - self.now} ns')

    def see_change(self, changed: list[bytes]) -> None:
        """Something has changed in etcd."""
        what = self.there.see(changed)
        if what is not None:
            self.changed(what, True)
        self.tell_all()

    def tell(self, member: Member) -> None:
        """By a watch, which may be late, or broken: then the member hears of the next change, or goes on when its time
        is over."""
        wait = member.awaited
        if wait is None or not self.store.has_news(wait, member.driver.found):
            return
        if not self.happens('a watch reports nothing', self.weather.watch_broken):
            turn, late = member.turn, self.of_etcd.uniform(0, self.weather.watch_late)
            member.soon(int(late * SECOND), lambda: self.wake(member, turn))

    def wake(self, member: Member, turn: int) -> None:
        if member.turn == turn and member.awaited is not None:
            member.turn += 1
            member.wake()


class Subscription:
    """A watch of a member: what it has yet to report, and when."""

    def __init__(self, is_wide: bool, begin: bytes, end: bytes) -> None:
        self.is_wide, self.begin, self.end = is_wide, begin, end
        self.events: Deque[tuple[int, Json]] = deque()

    def add(self, due: int, event: Json) -> None:
        """It reports all in order."""
        self.events.append((max(due, self.events[-1][0]) if self.events else due, event))

    def has_due(self, now: int) -> bool:
        """Whether something is to be reported by now."""
        return bool(self.events) and self.events[0][0] <= now


class Watched(EtcdMember):
    """A member that waits by what a watch reports to the package's own log, and whose snapshots are read from that."""

    simulation: Watching
    watch: Subscription | None = None
    broken = 0  # when its watch broke
    heard: WaitForNews | None = None  # the wait for which there was no news in what was due up to now

    def is_news(self, wait: WaitForNews) -> bool:
        """Whether there is what it waits for, as far as its log knows."""
        log = self.kept
        return log._news.awaited(self.driver.end, wait.sessions, wait.until, log._seen_wanted, log._seen)()

    def hear(self, wait: WaitForNews) -> bool:
        """Whether there is what it waits for, once what is due has been reported."""
        now, log = self.simulation.now, self.kept
        is_wide = log._is_wide_for(wait.until, len(log._news.sessions))
        if self.watch is None or self.watch.is_wide != is_wide or is_wide and log._news.lacks_promises:
            if now < self.broken + int(WATCH_AGAIN * SECOND):
                return False
            self.begin_watch(log, is_wide)
        assert self.watch is not None
        while not self.is_news(wait):
            if not self.watch.has_due(now):
                self.heard = wait
                return False
            log._news.see(self.watch.events.popleft()[1])
        return True

    def has_heard(self, wait: WaitForNews) -> bool:
        """Whether it knows all that is due now, and that this isn't what it waits for."""
        return self.heard is wait and self.watch is not None and not self.watch.has_due(self.simulation.now)

    def begin_watch(self, log: KeptLog, is_wide: bool) -> None:
        """After what is known, which is read anew if it isn't fresh."""
        self.simulation.happened['a watch begins anew'] += 1
        if not log._news.is_known(is_wide):
            part = Part(promise_of=None if is_wide else shared_log.NOBODY)
            log._see_all(log._look(*log._keys.standing(part)), part)
        begin, end = interval(log._keys.watched(is_wide))
        assert end is not None
        self.watch = Subscription(is_wide, begin, end)
        for event in self.simulation.events_since(log._news.revision, begin, end):
            self.watch.add(self.simulation.now, event)

    def break_watch(self) -> None:
        if self.watch is not None:
            self.watch, self.kept._news.is_fresh, self.broken = None, False, self.simulation.now


class Watching(OverEtcd):
    """A group whose members wait so. A watch is late, or breaks."""

    member: type[Member] = Watched

    def events_since(self, revision: int, begin: bytes, end: bytes) -> list[Json]:
        """What has happened to these keys after a revision, in order."""
        there = self.cluster.keys
        return [event_of(there, name, version) for _, name, version in there.since(revision, begin, end)]

    def see_change(self, changed: list[bytes]) -> None:
        there = self.cluster.keys
        events = [(key, event_of(there, key, there.get(key))) for key in sorted(set(changed))]
        for member in self.members:
            if not isinstance(member, Watched) or member.is_dead or member.watch is None:
                continue
            if self.happens('a watch reports nothing', self.weather.watch_broken / 5):
                member.break_watch()
                continue
            due = self.now + int(self.of_etcd.uniform(0, self.weather.watch_late) * SECOND)
            for key, event in events:
                if member.watch.begin <= key < member.watch.end:
                    member.watch.add(due, event)
            self.after(due - self.now, partial(self.tell, member))
        super().see_change(changed)

    def tell(self, member: Member) -> None:
        """It waits, or what was late is reported now."""
        assert isinstance(member, Watched)
        wait = member.awaited
        if wait is None or member.is_dead or member.has_heard(wait):
            return
        if member.hear(wait):
            member.soon(0, partial(self.wake, member, member.turn))
        elif member.watch is None:
            self.after(member.broken + int(WATCH_AGAIN * SECOND) - self.now, partial(self.tell, member))
        elif member.watch.events:
            self.after(member.watch.events[0][0] - self.now, partial(self.tell, member))


def event_of(keys: Keys, key: bytes, version: Version) -> Json:
    """What a watch reports of a key."""
    told: Json = {'kv': keys.told(key, version)}
    return told if version.value is not None else {**told, 'type': 'DELETE'}
