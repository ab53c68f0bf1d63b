"""An etcd of three servers in simulated time, as far as a log uses it, and what may become of its leaders.

It has one order of all that is done, as etcd does. Up to chance is what etcd leaves open: what becomes of requests
while there is no leader; how late a lease ends that isn't renewed; what a server answers by itself, if it is asked so
(`serializable`); and what a leader does that was cut off or paused, and doesn't know that another one came. That one
goes on to renew leases, of which no other server hears. Once it is back it may end a lease of its own term that it
hasn't renewed for the ttl, whatever was renewed under the new leader. A new leader gives each lease its full ttl. And
no leader ends a lease earlier than the ttl after a renewal that was done under it.
"""
from __future__ import annotations

import operator
import random
from base64 import b64decode, b64encode
from bisect import bisect_left, bisect_right, insort
from collections.abc import Callable
from dataclasses import dataclass, field
from functools import partial
from typing import Any, NamedTuple, Union

from bully.etcd_client import KV_RANGE, KV_TXN, LEASE_GRANT, LEASE_KEEPALIVE, Endpoint, Json, Refusal, Silent

SERVERS = tuple(Endpoint(f's{number}', 2379) for number in range(3))
NO_LEADER, NOT_FOUND, INVALID = 14, 5, 3  # codes of gRPC

COMPARED: dict[str, Callable[[Any, Any], bool]] = {'LESS': operator.lt, 'EQUAL': operator.eq, 'GREATER': operator.gt}

Outcome = Union[Json, Refusal, Silent]
Reply = Callable[[Outcome], None]
Action = Callable[[], None]


@dataclass(frozen=True)
class Weather:
    """What goes wrong with an etcd, and how often. Times are in seconds."""

    ttl: float  # of the members: leases have whole seconds
    late: float  # how late a lease ends at most
    losses: float  # how many leaders are lost in a second
    leaderless: float  # for how long there is none, at most
    stale: float  # how long a lost leader takes itself for one, at most
    lag: float  # how old is what a server knows by itself, at most
    watch_late: float  # how late a watch reports something, at most
    watch_broken: float  # how much it doesn't report, in a storm


def weather_of(choice: random.Random) -> Weather:
    """The weather of a seed."""
    return Weather(
        ttl=choice.choice([1.0, 1.0, 0.7, 1.4]), late=choice.choice([0, 0.1, 0.5]),
        losses=choice.choice([0.1, 0.3, 0.8]), leaderless=choice.choice([0.05, 0.5, 2]),
        stale=choice.choice([0.3, 1.5, 4]), lag=choice.choice([0, 0.1, 0.5]), watch_late=choice.choice([0, 0.1, 0.5]),
        watch_broken=choice.choice([0, 0.1, 0.5]),
    )  # fmt: skip


class Version(NamedTuple):
    """A key from some revision on. Nothing is its value, if it isn't there."""

    value: bytes | None = None
    created: int = 0
    modified: int = 0
    version: int = 0
    lease: int = 0


NOTHING = Version()


def within(names: list[bytes], begin: bytes, end: bytes) -> list[bytes]:
    """Those of the names, which are in rising order, from one on that are before another one."""
    return names[bisect_left(names, begin) : bisect_left(names, end)]


class Keys:
    """All keys, in all revisions."""

    def __init__(self) -> None:
        self.times: list[float] = [0.0]  # of the revisions, from the first on
        self._names: list[bytes] = []
        self._versions: dict[bytes, list[Version]] = {}
        self._there: list[bytes] = []  # the keys that are there now
        self._last: dict[bytes, Version] = {}  # what they are now
        self._changes: list[tuple[int, bytes]] = []  # the revisions in which keys were put
        self._told: dict[tuple[bytes, int], Json] = {}  # what was told of a key, by the revision since which it is so

    @property
    def revision(self) -> int:
        return len(self.times)

    def revision_at(self, moment: float) -> int:
        return max(1, bisect_right(self.times, moment))

    def get(self, key: bytes, revision: int | None = None) -> Version:
        if revision is None:
            return self._last.get(key) or (self._versions[key][-1] if key in self._versions else NOTHING)
        versions = self._versions.get(key, ())
        for version in reversed(versions):
            if revision is None or version.modified <= revision:
                return version
        return NOTHING

    def found(self, key: bytes, end: bytes | None, revision: int | None = None) -> list[tuple[bytes, Version]]:
        """The keys from one on that are before another one, or that one alone."""
        if revision is None or revision >= self.revision:
            last = self._last
            if end is None:
                return [(key, last[key])] if key in last else []
            return [(name, last[name]) for name in within(self._there, key, end)]
        names = [key] if end is None else within(self._names, key, end)
        pairs = ((name, self.get(name, revision)) for name in names)
        return [(name, version) for name, version in pairs if version.value is not None]

    def put(self, key: bytes, value: bytes, lease: int, revision: int) -> None:
        before = self.get(key)
        is_new = before.value is None
        if key not in self._versions:
            insort(self._names, key)
        version = Version(
            value, revision if is_new else before.created, revision, 1 if is_new else before.version + 1, lease
        )
        self._versions.setdefault(key, []).append(version)
        if key not in self._last:
            insort(self._there, key)
        self._last[key] = version
        self._changes.append((revision, key))

    def remove(self, key: bytes, revision: int) -> None:
        self._versions[key].append(Version(modified=revision))
        if self._last.pop(key, None) is not None:
            del self._there[bisect_left(self._there, key)]

    def put_since(self, revision: int, begin: bytes, end: bytes) -> tuple[int, list[tuple[bytes, Version]]]:
        """How many of these keys are there now, and those of them that were put in this revision or later."""
        changes = self._changes[bisect_left(self._changes, (revision, b'')) :]
        names = sorted({key for _, key in changes if begin <= key < end and key in self._last})
        return bisect_left(self._there, end) - bisect_left(self._there, begin), [
            (name, self._last[name]) for name in names
        ]

    def since(self, revision: int, begin: bytes, end: bytes) -> list[tuple[int, bytes, Version]]:
        """What has happened to these keys after a revision, in order."""
        found = []
        for name in within(self._names, begin, end):
            for version in reversed(self._versions[name]):
                if version.modified <= revision:
                    break
                found.append((version.modified, name, version))
        return sorted(found)

    def told(self, key: bytes, version: Version) -> Json:
        """A key, as etcd writes it in JSON. It is told to many, of whom nobody changes it."""
        place = key, version.modified
        found = self._told.get(place)
        if found is None:
            found = self._told[place] = pair_told(key, version, {})
        return found


@dataclass
class Lease:
    """A lease, as all servers know it."""

    seconds: float
    keys: set[bytes] = field(default_factory=set)


@dataclass
class Leader:
    """A leader, and what it alone knows: when the leases end."""

    term: int
    server: int
    ends: dict[int, float]


@dataclass
class Stale(Leader):
    """A leader that was cut off from the others, or paused, and knows nothing of a new one: what it knew then, and what
    it was asked."""

    seconds: dict[int, float]
    revision: int
    is_paused: bool
    asked: list[tuple[str, Json, Reply]] = field(default_factory=list)


class Cluster:
    """The servers."""

    def __init__(
        self,
        choice: random.Random,
        weather: Weather,
        clock: Callable[[], float],
        after: Callable[[float, Action], None],
    ) -> None:
        self.choice, self.weather, self.clock, self.after = choice, weather, clock, after
        self.keys = Keys()
        self.leases: dict[int, Lease] = {}
        self.granted = 0
        self.leader = Leader(2, 0, {})
        self.is_led = self.is_up = True
        self.stale: Stale | None = None
        self.awaiting: list[tuple[str, Json, Reply]] = []  # a leader
        self.changed: Callable[[list[bytes]], None] = lambda keys: None
        self.ends: Callable[[bytes, bytes], None] = lambda key, value: None  # told of what is gone with its lease

    # What is asked.

    def receive(self, server: int, path: str, told: Json, reply: Reply) -> None:
        """A server is asked, and answers at once, later or never."""
        if not self.is_up:
            reply(Silent(SERVERS[server], 'refused', may_be_done=False))
        elif self.stale is not None and server == self.stale.server:
            self.ask_stale(self.stale, path, told, reply)
        elif is_serializable(path, told):
            moment = max(0.0, self.clock() - self.choice.uniform(0, self.weather.lag))  # the log is older
            reply(self.read_old(path, told, self.keys.revision_at(moment), self.leader.term))
        elif self.is_led:
            reply(self.do(path, told))
        else:
            self.await_leader(path, told, reply)

    def await_leader(self, path: str, told: Json, reply: Reply) -> None:
        """A server that knows no leader waits for one. If it was asked to renew a lease, it has noted the term before.
        The leader that was lost may still do that, too, if it is paused with the request."""
        term = self.leader.term

        def reply_of_term(outcome: Outcome) -> None:
            if path == LEASE_KEEPALIVE and isinstance(outcome, dict):
                outcome['header']['raft_term'] = str(term)
            reply(outcome)

        if path == LEASE_KEEPALIVE and self.stale is not None and self.stale.is_paused and self.choice.random() < 0.5:
            self.stale.asked.append((path, told, reply))
        else:
            self.awaiting.append((path, told, reply_of_term))

    def ask_stale(self, stale: Stale, path: str, told: Json, reply: Reply) -> None:
        """A leader that is none any more: by itself it renews leases, and reads what it knows. All else waits."""
        if stale.is_paused:
            stale.asked.append((path, told, reply))
        elif path == LEASE_KEEPALIVE:
            self.renew_stale(stale, told, reply)
        elif is_serializable(path, told):
            reply(self.read_old(path, told, stale.revision, stale.term))
        else:
            stale.asked.append((path, told, reply))

    def renew_stale(self, stale: Stale, told: Json, reply: Reply) -> None:
        """If its time is over, the answer waits for the end of the lease, which no stale leader brings about."""
        lease, now = int(told['ID']), self.clock()
        seconds = stale.seconds.get(lease)
        if seconds is None:
            reply(self.answer(stale.term))
        elif now < stale.ends[lease]:
            stale.ends[lease] = now + seconds
            reply(self.answer(stale.term, ID=str(lease), TTL=str(int(seconds))))

    def do(self, path: str, told: Json) -> Outcome:
        """What the leader does, and answers."""
        if path == KV_TXN:
            return self.transact(told, self.keys.revision)
        if path == KV_RANGE:
            return self.answer(self.leader.term, **self.found(told, int(told.get('revision', 0)) or None))
        if path == LEASE_GRANT:
            return self.grant(float(told['TTL']))
        assert path == LEASE_KEEPALIVE, path
        return self.keep_alive(int(told['ID']))

    def read_old(self, path: str, told: Json, revision: int, term: int) -> Outcome:
        """What a server that knows so much answers by itself."""
        if path == KV_RANGE:
            return self.answer(term, **self.found(told, revision))
        return self.transact(told, revision, term)

    def answer(self, term: int, **more: object) -> Json:
        header = {'cluster_id': '1', 'revision': str(self.keys.revision), 'raft_term': str(term)}
        return {'header': header, **more}

    # Keys.

    def transact(self, told: Json, revision: int, term: int | None = None) -> Outcome:
        is_so = all(self.holds(condition, revision) for condition in told['compare'])
        steps = told['success' if is_so else 'failure']
        refusal = next(
            filter(None, (self.refusal(step['request_put']) for step in steps if 'request_put' in step)), None
        )
        if refusal is not None:
            return refusal
        responses, changed = [], self.change(steps)
        for step in steps:
            ranged = 'request_range' in step
            responses.append(
                {'response_range': self.found(step['request_range'], revision)} if ranged else {'response_put': {}}
            )
        answer = self.answer(term or self.leader.term, succeeded=is_so, responses=responses)
        if changed:
            self.changed(changed)
        return answer

    def refusal(self, put: Json) -> Refusal | None:
        """Why a key isn't put, if it isn't."""
        if (put.get('ignore_value') or put.get('ignore_lease')) and self.keys.get(b64decode(put['key'])).value is None:
            return Refusal(INVALID, 'etcdserver: key not found')
        if 'lease' in put and int(put['lease']) not in self.leases:
            return Refusal(NOT_FOUND, 'etcdserver: requested lease not found')
        return None

    def change(self, steps: list[Json]) -> list[bytes]:
        """Does what isn't a range, in one revision. The keys that changed."""
        revision, changed = self.keys.revision + 1, []
        for step in steps:
            if 'request_put' in step:
                put = step['request_put']
                changed.append(b64decode(put['key']))
                before = self.keys.get(changed[-1])
                value = before.value if put.get('ignore_value') else b64decode(put['value'])
                self.put(
                    changed[-1],
                    value or b'',
                    before.lease if put.get('ignore_lease') else int(put.get('lease', 0)),
                    revision,
                )
            elif 'request_delete_range' in step:
                for key, _ in self.keys.found(*interval(step['request_delete_range'])):
                    changed.append(key)
                    self.remove(key, revision)
        if changed:
            self.keys.times.append(self.clock())
        return changed

    def put(self, key: bytes, value: bytes, lease: int, revision: int) -> None:
        self.detach(key)
        self.keys.put(key, value, lease, revision)
        if lease:
            self.leases[lease].keys.add(key)

    def remove(self, key: bytes, revision: int) -> None:
        self.detach(key)
        self.keys.remove(key, revision)

    def detach(self, key: bytes) -> None:
        lease = self.leases.get(self.keys.get(key).lease)
        if lease is not None:
            lease.keys.discard(key)

    def holds(self, condition: Json, revision: int) -> bool:
        """Whether a condition is so of each key of its range; of none, as of a key that isn't there."""
        key, end = interval(condition)
        versions = [version for _, version in self.keys.found(key, end, revision)] or [Version()]
        target = condition['target']
        compared = COMPARED[condition['result']]
        if target == 'VALUE':
            value = b64decode(condition['value'])
            return all(each.value is not None and compared(each.value, value) for each in versions)
        wanted = int(condition[{'VERSION': 'version', 'CREATE': 'create_revision', 'MOD': 'mod_revision'}[target]])
        numbers = [{'VERSION': each.version, 'CREATE': each.created, 'MOD': each.modified}[target] for each in versions]
        return all(compared(number, wanted) for number in numbers)

    def found(self, asked: Json, revision: int | None) -> Json:
        """What a range finds."""
        (begin, end), least = interval(asked), int(asked.get('min_mod_revision', 0))
        if end is not None and least > 1 and (revision is None or revision >= self.keys.revision):
            count, newer = self.keys.put_since(least, begin, end)
        else:
            pairs = self.keys.found(begin, end, revision)
            count, newer = len(pairs), [pair for pair in pairs if pair[1].modified >= least] if least > 1 else pairs
        if asked.get('sort_order') == 'DESCEND':
            newer.reverse()
        if asked.get('count_only'):
            return {'count': str(count)}
        newer = newer[: int(asked.get('limit', 0)) or count]
        told = (
            [pair_told(*pair, asked) for pair in newer]
            if asked.get('keys_only')
            else [self.keys.told(*pair) for pair in newer]
        )
        return {'count': str(count), 'kvs': told}

    # Leases.

    def grant(self, seconds: float) -> Json:
        self.granted += 1
        self.leases[self.granted] = Lease(seconds)
        self.renew(self.granted)
        return self.answer(self.leader.term, ID=str(self.granted), TTL=str(int(seconds)))

    def keep_alive(self, lease: int) -> Json:
        if lease not in self.leases:
            return self.answer(self.leader.term)
        if self.leader.ends[lease] <= self.clock():
            self.revoke(lease)
            return self.answer(self.leader.term)
        self.renew(lease)
        return self.answer(self.leader.term, ID=str(lease), TTL=str(int(self.leases[lease].seconds)))

    def renew(self, lease: int) -> None:
        """The leader lets it last for its ttl from now on."""
        leader, seconds = self.leader, self.leases[lease].seconds
        leader.ends[lease] = self.clock() + seconds
        late = self.choice.uniform(0, self.weather.late)
        self.after(seconds + late + 1e-6, lambda: self.end_late(leader, lease))

    def end_late(self, leader: Leader, lease: int) -> None:
        """The leader ends the lease, if it is still the leader, and its time is over."""
        if leader is self.leader and self.is_led and lease in self.leases and leader.ends[lease] <= self.clock():
            self.revoke(lease)

    def revoke(self, lease: int) -> None:
        """The lease ends, and what was under it is gone."""
        keys = sorted(self.leases.pop(lease).keys)
        if keys:
            for key in keys:
                self.ends(key, self.keys.get(key).value or b'')
                self.keys.remove(key, self.keys.revision + 1)
            self.keys.times.append(self.clock())
            self.changed(keys)

    # Leaders.

    def lose_leader(self) -> None:
        """It resigns, is cut off from the other servers, or is paused; or all servers end, and start again."""
        if not self.is_led:
            return
        kind = self.choice.choice(['resigns', 'cut off', 'paused', 'restart'])
        self.is_led, self.is_up = False, kind != 'restart'
        if kind in ('cut off', 'paused') and self.stale is None:
            seconds = {number: lease.seconds for number, lease in self.leases.items()}
            ends = {number: self.leader.ends[number] for number in seconds}
            self.stale = Stale(
                self.leader.term, self.leader.server, ends, seconds, self.keys.revision, kind == 'paused'
            )
            self.after(self.choice.uniform(0, self.weather.stale), self.bring_back)
        self.after(self.choice.uniform(0, self.weather.leaderless), self.elect)

    def elect(self) -> None:
        """A new leader gives each lease its full ttl, and does what waited for it, or not, or later."""
        servers = [number for number in range(len(SERVERS)) if self.stale is None or number != self.stale.server]
        self.leader = Leader(self.leader.term + self.choice.choice([1, 1, 2]), self.choice.choice(servers), {})
        self.is_led = self.is_up = True
        for lease in self.leases:
            self.renew(lease)
        awaiting, self.awaiting = self.awaiting, []
        for request in awaiting:
            self.resolve(*request)

    def resolve(self, path: str, told: Json, reply: Reply) -> None:
        """What becomes of a request that waited: it is done, with an answer or without one, later, or not at all."""
        chance = self.choice.random()
        if chance < 0.4:
            reply(self.do(path, told))
        elif chance < 0.6:
            self.do(path, told)
            reply(Refusal(NO_LEADER, 'etcdserver: leader changed'))
        elif chance < 0.8:
            self.after(self.choice.random(), lambda: self.receive(self.leader.server, path, told, reply))
        else:
            reply(Refusal(NO_LEADER, 'etcdserver: leader changed'))

    def bring_back(self) -> None:
        """A stale leader goes on, does what it was asked meanwhile, and then finds the new one. That one may end leases
        by its word."""
        stale, self.stale = self.stale, None
        assert stale is not None
        for path, told, reply in stale.asked:
            if path == LEASE_KEEPALIVE:
                self.renew_stale(stale, told, reply)
            else:
                self.resolve_late(path, told, reply)
        for lease, end in stale.ends.items():
            if end <= self.clock() and self.choice.random() < 0.8:
                self.after(self.choice.uniform(0, 0.2), partial(self.end_by_word, lease))

    def resolve_late(self, path: str, told: Json, reply: Reply) -> None:
        if self.choice.random() < 0.5:
            self.after(0.0, lambda: self.receive(self.leader.server, path, told, reply))

    def end_by_word(self, lease: int) -> None:
        """A lease ends by the word of a stale leader."""
        if self.is_led and lease in self.leases:
            self.revoke(lease)


def is_serializable(path: str, told: Json) -> bool:
    """Whether a server may answer this by itself."""
    if path == KV_RANGE:
        return bool(told.get('serializable'))
    steps = [*told['success'], *told['failure']] if path == KV_TXN else []
    return bool(steps) and all(step.get('request_range', {}).get('serializable') for step in steps)


def interval(asked: Json) -> tuple[bytes, bytes | None]:
    """The first key of a range, and the first one after it, unless the range is one key."""
    return b64decode(asked['key']), b64decode(asked['range_end']) if 'range_end' in asked else None


def pair_told(key: bytes, version: Version, asked: Json) -> Json:
    """A key, as etcd writes it in JSON."""
    told = {
        'key': b64encode(key).decode(),
        'create_revision': str(version.created),
        'mod_revision': str(version.modified),
    }
    if version.lease:
        told['lease'] = str(version.lease)
    if not asked.get('keys_only'):
        told['value'] = b64encode(version.value or b'').decode()
    return told
