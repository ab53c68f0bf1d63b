"""The rules of a member, which are proved: of a process that acts for one node of a group over a shared log.

A `Core` has no clock, store, thread or chance of its own. `next` says what to do now. The driver does that, and reports
the result by the call that the step names. `docs/REBALANCING.md` has the rules, `docs/DECISIONS.md` the reasons. All
times are whole nanoseconds of one clock that never goes back. An *offset* in an epoch's log is the number of rows
before it, without the header; each row is an event. (`bully.Member`, which drives a core, is in `member.py`.)
"""
from __future__ import annotations

import ctypes
import enum
from collections.abc import Callable, Iterable, Sequence
from dataclasses import dataclass
from functools import cached_property
from itertools import chain
from typing import Union

from .faults import BullyError, NotLearned, OutOfMemory
from .learned import Learned
from .library import STRUCTURES, UINT16_MAX, UINT32_MAX, UINT64_MAX, line_of, list_of, number_of, numbers_of, owned_of
from .library import owners_of, texts_of
from .values import Line, Owned

TTL_MIN, TTL_MAX = 1_000_000, 86_400_000_000_000


# ---- What the driver reports


@dataclass(frozen=True, order=True)
class Promise:
    """The session works by no plan before that offset of that epoch, except on the partitions that it keeps."""

    epoch: int = 0
    offset: int = 0


@dataclass(frozen=True, order=True)
class Session:
    """One try of a process to hold the lease of its node. No other process of the group ever has its number; it numbers
    its tries."""

    process: int
    number: int


@dataclass(frozen=True, order=True)
class Lease:
    """Who holds the lease of a node; which partitions its promise keeps, in rising order: none in an eager group; and
    whether the holder is known to leave, as one that was asked to. Then the others stop at once what its leaving
    takes from them. A member's own lease shows it only once the member was asked to leave."""

    node: int
    session: Session
    promise: Promise
    kept: tuple[int, ...] = ()
    is_leaving: bool = False

    @cached_property
    def _raw(self) -> bytes:
        """The lease as the library takes it, but for the partitions that it keeps. It is made once."""
        return bytes(_raw_lease(self))


@dataclass(frozen=True)
class CoreOpening:
    """The start of an epoch, for one member: the header of its log; its number; the member's node; how many rows the
    log may have; the last table of the epoch before, by the numbers of this epoch, if it had as many partitions (in
    that table 0 is an owner that isn't in this group); and whether the group is cooperative, so that a change stops
    only the work that moves. All members of a group must agree on whether it is cooperative. If it is, a resource must
    keep the highest token of each partition."""

    header: Line
    epoch: int
    node: int
    rows_max: int
    old: tuple[int, ...] | None = None
    is_cooperative: bool = False


@dataclass(frozen=True)
class Seen:
    """What a snapshot shows besides the rows, at the same moment: the current epoch; who holds the leases of its nodes,
    in rising order of the nodes; whether an unknown process holds a lease, under a name that none of its nodes has; and
    whether other settings are requested. If the epoch isn't the member's, only its number matters. The promises of
    others may be left out, as `Promise()` that keeps nothing, unless `Core.needs_promises`."""

    epoch: int
    leases: tuple[Lease, ...] = ()
    has_unknown: bool = False
    has_request: bool = False


class StoreAnswer(enum.Enum):
    """The result of a request: it was done; it won't be done; or that isn't known, and it may have been done, may be
    done later, or never."""

    DONE, REFUSED, UNANSWERED = 'done', 'refused', 'unanswered'


class Ending(enum.Enum):
    """Why a member ends: it was asked to leave; its name isn't in the group any more; or its log has a row that isn't
    learned, or that isn't an event."""

    LEFT, NOT_THERE, BROKEN = 'left', 'not there', 'broken'


class Until(enum.Enum):
    """What ends a wait before its time: only other rows, sessions or requested settings than were seen, or another
    holder that is known to leave; also a holder of a lease that is now idle up to the end of the log (it has promised
    that, and keeps nothing), and wasn't when the member last read a snapshot; also that all are; or also a holder that
    has made another promise since then."""

    NEWS, ANY_IDLE, ALL_IDLE, PROMISES = 'news', 'any idle', 'all idle', 'promises'


class Reason(enum.Enum):
    """Why a member waits or backs off, by the number of the rule in `docs/REBALANCING.md`."""

    ANSWER = 2  # its last request isn't answered yet
    STOP = 3  # work that it was asked to stop hasn't ended yet
    PAUSE = 4  # a request was given up as unanswered not long ago
    HELD = 11  # another process holds the lease of its node
    REBALANCE = 12  # the others haven't rebalanced the group yet since the session before its own ended
    STABLE = 18  # the group is stable, and its node works on all that it owns, if it owns anything
    ADMISSION = 19  # the group is cooperative, and its lease isn't admitted yet
    TURN = 21  # it isn't its turn to change the log
    OTHERS = 22  # others must promise something before the log changes


# ---- Steps


class Request(enum.Enum):
    """A request to a store. Each is done at one moment, or not at all."""

    ACQUIRE = 1  # the node's lease for this session, which promises the offset: if it is free, and the log ends there
    RENEW = 2  # the lease again, if this session has held it without a gap
    RELEASE = 3  # the end of the lease, if this session holds it
    SNAPSHOT = 4  # the rows after those that were learned, for `learn`, and the argument of `snapshot_read`
    # This session's promise of the offset, which keeps what `works` returns now: if it holds the lease, and has
    # promised no higher offset.
    PROMISE = 5
    # To append the rows of `rebalance`: if the log ends at the offset, somebody holds a lease, and all holders, also
    # unknown processes, have promised this offset of this epoch and keep nothing. In a cooperative group, unless the
    # member ends, nothing is compared of holders whose node isn't affected (`is_affected`). A lease that is compared
    # may also be as the member knows it: its own with its last promise that was done, another one as the last snapshot
    # found it.
    APPEND = 6
    # To end the epoch and start the next one: if the log ends at the offset, somebody holds a lease, and all holders
    # have promised this offset of this epoch and keep nothing. In a cooperative group nothing is compared of holders
    # whose node isn't affected.
    ROLL_OVER = 7
    FOLLOW = 8  # the opening of the current epoch, for `followed`


@dataclass(frozen=True)
class Ask:
    """Make this request to the store, for this session or at this offset if the request has one, and report the result
    by `answered`, `snapshot_read`, `followed` or `passed`. For a promise, an append or a roll-over read the rows, who
    is affected, and what the member works on before anything else is reported to it."""

    request: Request
    session: Session = Session(0, 0)
    offset: int = 0


@dataclass(frozen=True)
class Begin:
    """Start to work by this token on what `owned` returns. Nothing is written first. Where it works already the work
    goes on, by this token from now on."""

    token: int


@dataclass(frozen=True)
class Stop:
    """Stop the work on the partitions that are STOPPING in `activities`, and report by `stopped` or `stopped_on` that
    it has ended. In an eager group that is all work."""


@dataclass(frozen=True)
class Wait:
    """Wait for so long at most, and report it by `woke`."""

    at_most: int
    until: Until
    reason: Reason


@dataclass(frozen=True)
class BackOff:
    """Do nothing for so long, or until there is something to report."""

    at_most: int
    reason: Reason


@dataclass(frozen=True)
class End:
    """Nothing more."""

    ending: Ending


Step = Union[Ask, Begin, Stop, Wait, BackOff, End]


# ---- The state of a core


@dataclass(frozen=True)
class Unknown:
    """It isn't known whether the session is live, because the store hasn't answered."""

    session: Session


@dataclass(frozen=True)
class Live:
    """The session is live. `since` is when its last successful renewal was requested."""

    session: Session
    since: int


class Way(enum.Enum):
    """The state of work that was started: it continues; it has ended by itself; or it was asked to stop, all of it or a
    part, and hasn't reported yet that this has ended."""

    WORKING, LOST, STOPPING = 'working', 'lost', 'stopping'


class Activity(enum.Enum):
    """What a process does on a partition: nothing; it works there; or it was asked to stop that, and hasn't reported
    yet that the work has ended."""

    IDLE, WORKING, STOPPING = 0, 1, 2


@dataclass(frozen=True)
class Work:
    """Work that was started, with the token by which it began last."""

    way: Way
    token: int


# ---- As the library numbers them: the first has number 1

RAW_LEASE = STRUCTURES['bully_lease']
_ENDINGS, _UNTILS, _WAYS, _ANSWERS = list(Ending), list(Until), list(Way), list(StoreAnswer)
_ACTIVITIES = list(Activity)  # these have numbers from 0 on

_STEPS: dict[int, Callable[[ctypes.Structure], Step]] = {
    1: lambda raw: Ask(Request(raw.request), Session(raw.process, raw.number), raw.offset),
    2: lambda raw: Begin(raw.token),
    3: lambda raw: Stop(),
    4: lambda raw: Wait(raw.at_most, _UNTILS[raw.until - 1], Reason(raw.reason)),
    5: lambda raw: BackOff(raw.at_most, Reason(raw.reason)),
    6: lambda raw: End(_ENDINGS[raw.ending - 1]),
}


def _moment(now: int) -> int:
    return number_of('a time', now, UINT64_MAX)


def _raw_lease(lease: Lease) -> ctypes.Structure:
    session, promise, node = lease.session, lease.promise, number_of('a node', lease.node, UINT16_MAX)
    process = number_of('a process', session.process, UINT64_MAX)
    number = number_of('a number of a session', session.number, UINT64_MAX)
    epoch, offset = number_of('an epoch', promise.epoch, UINT32_MAX), number_of('an offset', promise.offset, UINT32_MAX)
    kept = number_of('partitions', len(lease.kept), UINT16_MAX)
    return RAW_LEASE(process, number, epoch, offset, node, kept, lease.is_leaving)


def _raw_leases(leases: Sequence[Lease]) -> tuple[object, ...]:
    """These leases, and the partitions that they keep, as four arguments of the library."""
    raw = (RAW_LEASE * len(leases)).from_buffer_copy(b''.join([lease._raw for lease in leases]))
    return raw, len(leases), *numbers_of('a partition', chain.from_iterable([lease.kept for lease in leases]))


class Core(Learned):
    """A process that acts for one node of a group: what it knows, and what it does next.

    A core holds memory of the library until it is closed, as by `with`. Each call of a closed one raises Closed."""

    _kind, _showing = 'bully_member', 'node'
    _single = 'a member can not be copied: there must be only one'

    def __init__(self, opening: CoreOpening, process: int, ttl: int) -> None:
        """A member that has learned nothing, and requested nothing. No other process of the group may ever have the
        number of this one. The ttl is how long a lease lasts after its last renewal.

        Raises BadHeader, BadNode, TableLength, TableOwner; BadRowsMax: `rows_max` is below 22 for each node, or above
        EVENTS_MAX; BadTtl: the ttl is below TTL_MIN or above TTL_MAX; OutOfMemory."""
        super().__init__()
        self.fault: BullyError | None = None  # why its log is broken, if it has a row that wasn't learned
        self._last: tuple[Lease, ...] = ()  # the leases of the last snapshot
        self._raws = _raw_leases(())  # the same for the library
        number, length = number_of('a process', process, UINT64_MAX), number_of('a ttl', ttl, UINT64_MAX)
        self._begin('open', *self._epoch_of(opening), number, length)

    def _words(self) -> str:
        shown = self._shown()
        return f'of node {shown.node} in epoch {shown.epoch}, {shown.offset} rows'

    @staticmethod
    def _epoch_of(opening: CoreOpening) -> tuple[object, ...]:
        """An opening, as arguments of the library."""
        header, owners = line_of(opening.header), owners_of(opening.old)
        epoch, node = number_of('an epoch', opening.epoch, UINT32_MAX), number_of('a node', opening.node, UINT16_MAX)
        rows_max = number_of('rows_max', opening.rows_max, UINT32_MAX)
        return (*header, epoch, node, rows_max, *owners, bool(opening.is_cooperative))

    # What to do next.

    def next(self, now: int) -> Step:
        """What to do now, by the first rule that applies. The core notes that it is done. Until a request is answered
        there is no other request, only a Stop or a BackOff. So report a lost answer, too, by `answered`."""
        raw = self._filled(STRUCTURES['bully_step'](), 'next', _moment(now))
        return _STEPS[raw.kind](raw)

    def rebalance(self) -> list[str]:
        """The rows to append, without line ends. They make the group stable among the holders of leases, in a
        cooperative group among those that are admitted; for a member that leaves as the last one, with no node.

        Raises Full if the log has no room for them; OutOfMemory."""
        return texts_of(self._room.text(self._function('rebalance')))

    def owned(self) -> Owned | None:
        """The token by which the node may work, and its partitions, by a plan after the session's promise; None if it
        may not.

        Raises OutOfMemory."""
        return owned_of(self._partitions, self._function('owned'))

    def owned_of(self, lease: Lease) -> Owned | None:
        """What the holder of such a lease owns, by a plan after what its session has promised of this epoch: its
        process may work on that; in a cooperative group also on what its promise keeps.

        Raises BadNode, OutOfMemory."""
        raw = _raw_lease(lease)
        return owned_of(self._partitions, self._function('owned_of'), ctypes.byref(raw))

    def activities(self) -> list[Activity]:
        """What its process does on each partition, from partition 0 on."""
        return [_ACTIVITIES[number] for number in list_of(self._partitions, self._function('activities'))]

    def works(self) -> tuple[int, ...]:
        """The partitions on which its process works, in rising order, also those that it was asked to stop: what a
        promise that is requested now keeps.

        Raises OutOfMemory."""
        return list_of(self._partitions, self._function('works'))

    def is_affected(self, node: int) -> bool:
        """Whether a change of the log affects this node, by the last snapshot: in an eager group each live node, in a
        cooperative one each that loses a partition by the coming table. The member of an affected node must promise the
        end of the log before the change. (A member that ends affects all.)

        Raises BadNode."""
        number = number_of('a node', node, UINT16_MAX)
        return bool(self._filled(ctypes.c_uint32(), 'is_affected', number).value)

    def is_stable(self) -> bool:
        """Whether the group is stable by the last snapshot, so that there is nothing to do but work: among the live
        nodes that were admitted then."""
        return bool(self._filled(ctypes.c_uint32(), 'is_stable').value)

    def needs_promises(self, now: int) -> bool:
        """Whether the next snapshot must show what others have promised. In an eager group it must. In a cooperative
        group it must if no higher node is live, or if the group isn't stable and the member's turn to change the log
        has come, or while the member keeps out a node that came again. Otherwise these promises may be left out: the
        member does the same. A snapshot may change what this returns; if that is True after one that left promises out,
        the member needs another one."""
        return bool(self._filled(ctypes.c_uint32(), 'needs_promises', _moment(now)).value)

    # What the driver reports.

    def answered(self, now: int, answer: StoreAnswer) -> None:
        """The result of the last request. A Snapshot or a Follow without a result is UNANSWERED."""
        self._call('answered', _moment(now), _ANSWERS.index(answer) + 1)

    def learn(self, rows: Sequence[Line]) -> None:
        """The rows that a snapshot found after the core's offset, before `snapshot_read`. A row that isn't learned, or
        that isn't an event, ends the member as BROKEN; for a row that isn't learned `fault` is the reason.

        Raises NotLearned for OutOfMemory, which ends nothing; and, as `Replica.learn`, ValueError or TypeError."""
        try:
            self._learn(rows)
        except NotLearned as fault:
            if fault.cause is OutOfMemory:
                raise
            self.fault = self.fault or fault

    def snapshot_read(self, now: int, seen: Seen) -> None:
        """What a snapshot showed besides the rows. Nothing changes if no snapshot is awaited.

        Raises BadNode; OutOfMemory, and then nothing changes, or the member reads another one after a pause."""
        epoch, others = number_of('an epoch', seen.epoch, UINT32_MAX), (bool(seen.has_unknown), bool(seen.has_request))
        if seen.leases is not self._last:
            self._last, self._raws = seen.leases, _raw_leases(seen.leases)
        self._call('snapshot_read', _moment(now), epoch, *self._raws, *others)

    def passed(self) -> None:
        """In place of any other answer: the epoch is over, and its log was pruned. A store needs this call only if its
        snapshot doesn't return the current epoch in that case. All stores of this package return it, so `Member` never
        calls this."""
        self._call('passed')

    def followed(self, now: int, opening: CoreOpening | None) -> None:
        """The opening of the current epoch, if the member's name is in it. Nothing changes if none is awaited.

        Raises what `Core` does, except BadTtl; then nothing changes."""
        if opening is None:
            self._call('not_there')
        else:
            self._begin('followed', _moment(now), *self._epoch_of(opening))

    def woke(self) -> None:
        """A wait is over."""
        self._call('woke')

    def leave(self) -> None:
        """The member must end in order."""
        self._call('leave')

    def lost(self, token: int) -> None:
        """All work has ended by itself. The token is that of the last Begin, also for work that was started before;
        nothing changes with another one."""
        self._call('lost', number_of('a token', token, UINT32_MAX))

    def stopped(self) -> None:
        """All work has ended. Even if there was none, the member promises again before a change that affects it."""
        self._call('stopped')

    def stopped_on(self, partition: int) -> None:
        """The work on this partition has ended, whether or not the member was asked to stop it. If the node still owns
        the partition, the member begins again there. Even if there was no such work or partition, the member promises
        again before a change that affects it."""
        self._call('stopped_on', number_of('a partition', partition, UINT16_MAX))

    # The state.

    @property
    def session(self) -> Unknown | Live | None:
        """Whether its process holds the lease of its node."""
        shown = self._shown()
        if not shown.session:
            return None
        session = Session(shown.process, shown.number)
        return Unknown(session) if shown.session == 1 else Live(session, shown.since)

    @property
    def sure_until(self) -> int:
        """Until when its lease is sure: until then it may do the work that it was asked to start. 0 if it has no
        lease."""
        shown = self._shown()
        return int(shown.since + shown.sure_left)  # (`sure_left` is of time 0)

    @property
    def promised(self) -> int:
        """The last offset of this epoch that its session has promised, whether or not the store knows of that."""
        return int(self._shown().promised)

    @property
    def work(self) -> Work | None:
        """The state of its work, if there is any."""
        shown = self._shown()
        return Work(_WAYS[shown.work - 1], shown.token) if shown.work else None

    @property
    def ending(self) -> Ending | None:
        """Why it ends, if it does."""
        shown = self._shown()
        return _ENDINGS[shown.ending - 1] if shown.ending else None

    @property
    def has_request(self) -> bool:
        """Whether other settings are requested, by its last snapshot."""
        return bool(self._shown().has_request)

    @property
    def epoch(self) -> int:
        """The number of its epoch."""
        return int(self._shown().epoch)

    @property
    def node(self) -> int:
        """Its node."""
        return int(self._shown().node)

    @property
    def offset(self) -> int:
        """The end of the log, as far as it was learned."""
        return int(self._shown().offset)

    def _shown(self) -> ctypes.Structure:
        return self._filled(STRUCTURES['bully_member_state'](), 'show', 0)
