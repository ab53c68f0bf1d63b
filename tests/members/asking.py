"""Logs of `bully.etcd` over a simulated etcd: their calls are done request by request, in simulated time.

A call begins anew with each answer: all that was answered before is told to it again, and it stops at the first request
that has no answer yet. So it may not change what it begins with before its last answer, and none does.
"""
from __future__ import annotations

from collections.abc import Callable, Mapping
from typing import NamedTuple, TypeVar
from unittest import mock

from bully import etcd
from bully.core import Promise, Session, Until
from bully.encoding import maintenance_of, session_text
from bully.epochs import Opening
from bully.etcd import EtcdLog, offset_text, promise_text
from bully.etcd_client import Address, Client, Json, Refusal, Silent, prefix_end
from bully.shared_log import Holder, Wanted, is_awaited
from .cluster import SERVERS, Cluster, Outcome

ADDRESS = f'etcd://{",".join(map(str, SERVERS))}/group'

Told = TypeVar('Told')


class Request(NamedTuple):
    """What a server is asked, and until when an answer is waited for."""

    server: int
    path: str
    told: Json
    reached: float  # when it has to be connected
    end: float


class Pending(BaseException):
    """A request that has no answer yet."""

    def __init__(self, request: Request) -> None:
        super().__init__(request)
        self.request = request


class Journal:
    """What a call has seen up to now: moments, and what became of its requests."""

    def __init__(self, clock: Callable[[], float], turn: int, seen: tuple[int, int]) -> None:
        self.turn, self.seen = turn, seen  # the server that was asked first, and what was known then
        self._clock = clock
        self._seen: list[float | Outcome] = []
        self._index = 0

    def rewind(self) -> None:
        self._index = 0

    def add(self, outcome: Outcome) -> None:
        self._seen.append(outcome)

    def clock(self) -> float:
        if self._index == len(self._seen):
            self._seen.append(self._clock())
        moment = self._next()
        assert isinstance(moment, float)
        return moment

    def outcome(self, request: Request) -> Outcome:
        if self._index == len(self._seen):
            raise Pending(request)
        outcome = self._next()
        assert not isinstance(outcome, float)
        return outcome

    def _next(self) -> float | Outcome:
        self._index += 1
        return self._seen[self._index - 1]


class Asking(Client):
    """Asks a simulated etcd: by a journal, or else at once, of its leader, whatever its weather is."""

    def __init__(self, cluster: Cluster, address: Address, patience: float, first: int) -> None:
        super().__init__(address, patience, None, '', '')
        self.cluster = cluster
        self.journal: Journal | None = None
        self._turn = first

    def _now(self) -> float:
        return self.cluster.clock() if self.journal is None else self.journal.clock()

    def begun(self) -> Journal:
        """The journal of a call that begins now."""
        return Journal(self.cluster.clock, self._turn, self.seen)

    def attempt(self, journal: Journal, call: Callable[[], Told]) -> Told:
        """What comes of the call, as far as the journal goes. Raises Pending, and what the call raises."""
        journal.rewind()
        self.journal, self._turn, self.seen = journal, journal.turn, journal.seen
        try:
            return call()
        finally:
            self.journal = None

    def _exchange(self, path: str, told: Json, reached: float, end: float) -> Json:
        if self.journal is None:
            outcome = self.cluster.do(path, told)
        else:
            outcome = self.journal.outcome(Request(self._turn, path, told, reached, end))
        if isinstance(outcome, (Refusal, Silent)):
            raise outcome
        return outcome


class KeptLog(EtcdLog):
    """A log in a simulated etcd."""

    @property
    def client(self) -> Asking:
        assert isinstance(self._client, Asking)
        return self._client

    def wait(
        self,
        epoch: int,
        offset: int,
        sessions: Mapping[str, Session],
        until: Until,
        seconds: float,
        woken: int | None = None,
    ) -> None:
        """Nobody waits by this."""

    def has_news(
        self, epoch: int, offset: int, sessions: Mapping[str, Session], wanted: Wanted, until: Until,
        before: Mapping[str, Holder],
    ) -> bool:  # fmt: skip
        """Whether a wait is over before its time after a snapshot that found these settings requested, this
        maintenance, and these holders of leases: of etcd as it is, whatever a server knows."""
        there, here = self.client.cluster.keys, offset_text(Promise(epoch, offset)).encode()
        end, requested_settings = there.get(self._keys.offset).value, there.get(self._keys.requested).value
        maintenance = maintenance_of(self.address, there.get(self._keys.maintenance).value)
        if (
            end != here
            or (None if requested_settings is None else Opening.parse(requested_settings.decode()), maintenance)
            != wanted
        ):
            return True
        told = {name.encode(): session_text(session).encode() for name, session in sessions.items()}
        promised = {name.encode(): promise_text(each.promise, each.kept).encode() for name, each in before.items()}
        return self._below(self._keys.sessions) != told or is_awaited(
            until, self._below(self._keys.promises), here, promised
        )

    def _below(self, prefix: bytes) -> dict[bytes, bytes | None]:
        """The values of all keys with this prefix, by the rest of the key."""
        found = self.client.cluster.keys.found(prefix, prefix_end(prefix))
        return {key[len(prefix) :]: version.value for key, version in found}


def opened(cluster: Cluster, patience: float, first: int) -> KeptLog:
    """The log of the cluster, by a client that asks this server first."""
    with mock.patch.object(etcd, 'Client', lambda address, *_: Asking(cluster, address, patience, first)):
        return KeptLog(ADDRESS)


def made(cluster: Cluster, opening: Opening) -> KeptLog:
    """A new log of the cluster, which is asked as it is."""
    with mock.patch.object(etcd, 'Client', lambda address, *_: Asking(cluster, address, 1.0, 0)):
        EtcdLog.create(ADDRESS, opening).close()
    return opened(cluster, 1.0, 0)
