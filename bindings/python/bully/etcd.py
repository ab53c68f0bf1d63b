"""A log in etcd, 3.4 or later, which processes of many machines share: `EtcdLog`.

The keys of a log, below its prefix:

- `name`: a name that no other log has, with the form of the log. Each request is for the log of that name;
- `opening/EPOCH`; and `first`, the first epoch whose rows are there;
- `offset`: the end of the log, EPOCH/OFFSET of the current epoch; and `rows/EPOCH/OFFSET`: the rows of one append,
  each with its line end and all compressed, by the offset of the first one;
- `time/EPOCH/OFFSET`: the time of that append by the wall clock of its process, in milliseconds since 1970;
- `requested`: the opening of the next epoch, if settings are requested; and `maintenance`, if there is any;
- `failing/NAME`, of a node whose work fails: `fails`, or `gave up` if the node has given up;
- `lease/session/NAME` and `lease/promise/NAME`: a session, and its promise, both under one lease of etcd's; no session
  is put without its promise. A promise is EPOCH/OFFSET, followed by the partitions that it keeps, each after a space.

EPOCH and OFFSET have ten digits, so a later one is greater. A watch reports the keys from `lease/` to `requested`, so
neither rows nor notes of failing nodes. A call reads at one revision; no read is `serializable`.

A member's lease is renewed by a renewal of etcd's lease, without a write, while etcd has the leader under which that
was granted. A leader of an earlier term that was paused may answer renewals of which no other server knows, and may end
a lease that was renewed under a later leader. So a renewal counts only if etcd's term is the same before it and after
it, and is that of the grant. Otherwise session and promise move to a new lease of etcd's, in one transaction that keeps
the promise. No other write names a lease: a late one would put a key under an old lease, and lose the key.
"""
from __future__ import annotations

import re
import ssl
from collections.abc import Callable, Iterator, Mapping, Sequence
from contextlib import closing
from typing import NamedTuple

from .clocks import SECOND, seconds_of_boot, sleep_until_ready, wall_clock
from .core import Promise, Session, Until

from .encoding import (
    FORM, check_end, check_form, kept_of, kept_text, log_name, maintenance_of, no_epoch, opening_of, packed,
    requested_of, rows_of, rows_text, session_of, session_text,
)  # fmt: skip
from .epochs import FIRST, Opening

from .etcd_client import (
    KV_RANGE, LEASE_GRANT, LEASE_KEEPALIVE, Answer, Client, Compacted, Json, Pair, Silent, Subscription, coded, exists,
    is_before, number_is, pair_of, pairs_of, prefix_end, put_at, put_of, range_at, range_below, range_from, ranges,
    read_address, value_is, value_of,
)  # fmt: skip
from .maintenance import Maintenance
from .repair import NOWHERE, StoredEpoch

from .shared_log import (
    NOBODY, UNKNOWN, BadLease, DamagedLog, ForeignLog, Holder, LogError, LogExists, NoLog, OtherLog, Precondition,
    Sessions, Snapshot, Unanswered, is_awaited, may_change,
)  # fmt: skip
from .values import Rows

BEGIN = f'{{"form": {FORM}, '  # the start of an opening; an older version doesn't take it for one
NAME = re.compile(rb'([0-9]{1,9}) [0-9a-f]{16}')  # of a log: its form, and a name that no other log has
# Parts of keys of logs, also of earlier forms.
RESERVED = {'failing', 'lease', 'log', 'opening', 'presence', 'rows', 'time'}
OLDEST, OF_OLDEST = 2, b'{"epoch": '  # a form without names, and the start of its openings
FAILS, GAVE_UP = 'fails', 'gave up'  # notes of a node
PAGE = 500  # appends that are read in one request
READS = 3  # how often a read is tried, if etcd compacts its revision meanwhile
WATCH_AGAIN = 0.2  # seconds between the end of a watch that broke and the next watch
FEW = 64  # leases: while there are no more, each watch reports promises after a snapshot that has all of them

Told = tuple[Promise, tuple[int, ...]]  # a promise, and the partitions that it keeps


class Part(NamedTuple):
    """Which sessions and promises are read: all that were put after these two revisions. If a name is given, no promise
    is read but that of this name, whenever it was put."""

    sessions: int = 0
    promises: int = 0
    promise_of: str | None = None


def offset_text(promise: Promise) -> str:
    """An offset of an epoch as text, so that a later one is greater."""
    return f'{promise.epoch:010}/{promise.offset:010}'


def offset_of(text: str) -> Promise:
    """The offset of such a text. Raises ValueError."""
    epoch, offset = text.split('/')
    return Promise(int(epoch), int(offset))


def promise_text(promise: Promise, kept: tuple[int, ...] = ()) -> str:
    """A promise as text, with the partitions that it keeps: so one of an earlier offset is less than a later one of an
    offset alone."""
    return f'{offset_text(promise)} {kept_text(kept)}'.rstrip()


def promise_of(text: str) -> Told:
    """The promise of such a text, and what it keeps. Raises ValueError."""
    offset, space, kept = text.partition(' ')
    if space and not kept:
        raise ValueError(f'{text!r} is not a promise')
    return offset_of(offset), kept_of(kept)


class Keys:
    """The keys of a log."""

    def __init__(self, prefix: str) -> None:
        self.root = f'{prefix}/'.encode()
        self.older = self.opening(FIRST)  # a log of an older form has this key, too
        words = (b'name', b'first', b'offset', b'requested', b'maintenance')
        self.name, self.first, self.offset, self.requested, self.maintenance = (self.root + word for word in words)
        self.logs, self.times, self.holders = self.root + b'rows/', self.root + b'time/', self.root + b'lease/'
        self.sessions, self.promises = self.holders + b'session/', self.holders + b'promise/'
        self.failing = self.root + b'failing/'

    def opening(self, epoch: int) -> bytes:
        return self.root + b'opening/%010d' % epoch

    def rows(self, epoch: int) -> bytes:
        return self.logs + b'%010d/' % epoch

    def row(self, epoch: int, offset: int) -> bytes:
        return self.rows(epoch) + b'%010d' % offset

    def time(self, row: bytes) -> bytes:
        """The key of an append's time, by the key of its rows, or a part of such a key."""
        return self.times + row[len(self.logs) :]

    def session(self, name: str) -> bytes:
        return self.sessions + name.encode()

    def promise(self, name: str) -> bytes:
        return self.promises + name.encode()

    def failure(self, name: str) -> bytes:
        return self.failing + name.encode()

    def node(self, key: bytes, prefix: bytes) -> str:
        """The name in a key with this prefix. Raises ValueError."""
        return key[len(prefix) :].decode()

    def begin(self, opening: Opening) -> list[Json]:
        """Starts the epoch of this opening."""
        here = put_at(self.offset, offset_text(Promise(opening.epoch, 0)))
        return [here, put_at(self.opening(opening.epoch), BEGIN + opening.text()[1:])]

    def page(self, begin: bytes, epoch: int) -> Json:
        """The range of an epoch's appends, from one key on, that are read in one request."""
        return range_from(begin, prefix_end(self.rows(epoch)), limit=PAGE)

    def standing(self, part: Part) -> list[Json]:
        """The ranges of all but rows: the end of the log, the requested settings, the maintenance, this part of the
        sessions and promises, and the nodes whose work fails."""
        whole = map(range_at, (self.offset, self.requested, self.maintenance))
        sessions = range_below(self.sessions, min_mod_revision=str(part.sessions + 1))
        promises = range_below(self.promises, min_mod_revision=str(part.promises + 1))
        if part.promise_of is not None:
            promises = range_at(self.promise(part.promise_of))
        return [*whole, sessions, promises, range_below(self.failing)]

    def watched(self, is_wide: bool) -> Json:
        """The range of a watch, with promises or without them. Rows aren't in it, because a snapshot reads them."""
        return range_from(self.holders if is_wide else self.sessions, self.requested + b'\0')

    def same_but(self, name: str, revision: int) -> list[Json]:
        """The conditions that since this revision no promise was put, so no session either, but for those of this
        name."""
        own = self.promise(name)
        parts = (self.promises, own), (own + b'\0', prefix_end(self.promises))
        return [is_before(revision + 1, begin, end) for begin, end in parts]


class Held(NamedTuple):
    """etcd's lease of a session: the session, the lease, its seconds, and etcd's term when it was granted."""

    session: Session
    lease: int
    seconds: int
    term: int


class EtcdLog:
    """A log in etcd. Only one thread at a time may use it."""

    form, KEYS = FORM, Keys

    def __init__(
        self, address: str, patience: float = 1.0, tls: ssl.SSLContext | None = None, user: str = '', password: str = ''
    ) -> None:
        """Opens the log at this address, `etcd://HOST:PORT,HOST:PORT/PREFIX`, which `create` made; with `etcds` over
        TLS. Each call takes `patience` seconds at most, and a read so long for each of its parts.

        Raises NoLog, ForeignLog, DamagedLog, Denied, LogError, Unanswered; ValueError if the address isn't valid."""
        read = read_address(address)
        self.address = address
        self._keys = self.KEYS(read.prefix)
        self._client = Client(read, patience, tls, user, password)
        self._held: Held | None = None
        self._own: tuple[str, Session] | None = None  # the session that acquired a lease last, and of which name
        self._own_found: tuple[str, Session] | None = None  # the same, once a snapshot had it
        self._seen_wanted: tuple[bytes | None, bytes | None] = None, None
        self._seen: Mapping[str, Told] = {}  # the promises in the last snapshot
        self._has_promises = True  # whether it had all of them
        self._news = News(self._keys)
        self._watch: Subscription | None = None
        self._is_wide = False  # whether it reports promises
        self._broken = float('-inf')  # when a watch broke
        self._woken: int | None = None  # a descriptor that ends a wait
        try:
            self._name = self._open()
        except BaseException:
            self._client.close()
            raise

    @staticmethod
    def create(
        address: str, opening: Opening, patience: float = 1.0, tls: ssl.SSLContext | None = None, user: str = '',
        password: str = '',
    ) -> EtcdLog:  # fmt: skip
        """Makes a log with this opening at this address, if there is nothing below its prefix, and opens it.

        Raises LogExists, ForeignLog, Denied, LogError, Unanswered; ValueError if the address isn't valid, or if keys of
        another log could be below its prefix."""
        read = read_address(address)
        if not RESERVED.isdisjoint(read.prefix.split('/')):
            parts = ', '.join(sorted(RESERVED))
            raise ValueError(
                f'{address}, and no part of the prefix of a new log may be one of {parts}: they are keys of logs'
            )
        with closing(Client(read, patience, tls, user, password)) as client:
            client.begin()
            make(client, address, Keys(read.prefix), opening)
        return EtcdLog(address, patience, tls, user, password)

    def _open(self) -> bytes:
        """Checks that there is a log. Returns its name."""
        self._client.begin()
        keys = self._keys
        asked = ranges(range_at(keys.name), range_at(keys.older), range_below(keys.root, limit=1))
        named, older, first = self._client.transact([], asked).ranges
        name, opening = value_of(named), value_of(older) or b''
        found = NAME.fullmatch(name or b'')
        if name is not None and found is not None:
            check_form(self.address, int(found[1]), self.form)
            return name
        if not pairs_of(first):
            raise NoLog(f'{self.address}: there is no log; bully-member init makes one')
        if name is None and opening.startswith(OF_OLDEST):
            check_form(self.address, OLDEST, self.form)
        is_ours = pairs_of(first)[0].key.startswith((keys.failing, keys.first, keys.logs, keys.holders))
        if name is None and (opening.startswith(BEGIN.encode()) or is_ours):
            raise DamagedLog(f'{self.address}: the log has no name')
        raise ForeignLog(f'{self.address}: there is something below its prefix that is not a log of format {FORM}')

    # Epochs.

    def epochs(self) -> range:
        self._client.begin()
        return self._there(self._look(range_at(self._keys.offset), range_at(self._keys.first)))

    def _there(self, answer: Answer) -> range:
        """The epochs whose rows are there, by an answer with the end of the log and the first epoch. (Rows of earlier
        epochs may be left.)"""
        return range(int(value_of(answer.ranges[1]) or FIRST), self._end_of(answer.ranges[0]).epoch + 1)

    def opening(self, epoch: int | None = None) -> Opening:
        number = self.epochs()[-1] if epoch is None else epoch
        self._client.begin()
        found = pairs_of(self._look(range_at(self._keys.opening(number))).ranges[0])
        if not found:
            raise no_epoch(self.address, number, self.epochs())
        return opening_of(self.address, number, found[0].value)

    def roll_over(self, epoch: int, offset: int, opening: Opening, known: Precondition | None = None) -> bool:
        """Reads the requested settings first; they must be the same at the end."""
        self._client.begin()
        keys = self._keys
        read = map(range_at, (keys.opening(epoch), keys.requested, keys.offset))
        *asked, there = self._look(*read).ranges
        end, here = self._end_of(there), Promise(epoch, offset)
        check_end(self.address, end, here)
        found, at_next = map(pairs_of, asked)
        if not found or end != here:
            return False
        requested = requested_of(self.address, epoch, at_next[0].value if at_next else None)
        if opening.bare != opening_of(self.address, epoch, found[0].value).after(requested):
            return False
        is_same = number_is(keys.requested, 'mod_revision', at_next[0].modified if at_next else 0)
        done = [*keys.begin(opening), removed(range_at(keys.requested))]
        return self._add(here, done, [*self._may_change(here, known, is_append=False), is_same])

    def ask(self, requested: Opening, epoch: int) -> bool:
        self._client.begin()
        if requested.epoch != epoch + 1:
            return False
        return self._change(self._is_current(epoch), [put_at(self._keys.requested, requested.bare.text())]).is_done

    def cancel(self, epoch: int) -> None:
        self._client.begin()
        self._change(self._is_current(epoch), [removed(range_at(self._keys.requested))])

    def set_maintenance(self, maintenance: Maintenance, before: Maintenance | None) -> bool:
        """Reads the maintenance first; it must be the same at the end."""
        self._client.begin()
        key = self._keys.maintenance
        found = pairs_of(self._look(range_at(key)).ranges[0])
        if before is not None and before != maintenance_of(self.address, found[0].value if found else None):
            return False
        is_same, text = number_is(key, 'mod_revision', found[0].modified if found else 0), maintenance.text()
        return self._change([is_same], [put_at(key, text) if text else removed(range_at(key))]).is_done

    def note(self, name: str, gave_up: bool | None) -> None:
        self._client.begin()
        key = self._keys.failure(name)
        self._change([], [removed(range_at(key)) if gave_up is None else put_at(key, GAVE_UP if gave_up else FAILS)])

    def give_up(self, name: str, heir: str, session: Session) -> bool:
        self._client.begin()
        keys = self._keys
        is_there = value_is(keys.session(heir), session_text(session).encode())
        is_well = number_is(keys.failure(heir), 'version', 0)
        return self._change([is_there, is_well], [put_at(keys.failure(name), GAVE_UP)]).is_done

    def prune(self, first: int) -> None:
        """The epochs are gone at once. Their rows are removed afterwards, a part at a time, so that nobody waits for
        long."""
        keys, there = self._keys, self.epochs()
        first = min(first, there[-1])
        if first > there[0]:
            self._client.begin()
            is_later = {**value_is(keys.first, b'%010d' % first), 'result': 'LESS'}
            self._change([is_later], [put_at(keys.first, f'{first:010}')])
        while True:
            self._client.begin()
            asked = range_from(keys.logs, keys.rows(first), keys_only=True, limit=PAGE)
            found = pairs_of(self._look(asked).ranges[0])
            if not found:
                return
            ends = found[0].key, found[-1].key + b'\0'
            self._change([], [removed(range_from(begin, end)) for begin, end in (ends, tuple(map(keys.time, ends)))])

    def _is_current(self, epoch: int) -> list[Json]:
        """The conditions that the epoch has begun, and no later one."""
        keys = self._keys
        return [exists(keys.opening(epoch)), number_is(keys.opening(epoch + 1), 'version', 0)]

    # Leases.

    def acquire(self, name: str, session: Session, promise: Promise, ttl: int) -> bool:
        """Checks first whether it may acquire the lease, so that no lease of etcd's is granted in vain."""
        self._client.begin()
        keys, here = self._keys, offset_text(promise)
        answer = self._look(range_at(keys.session(name), keys_only=True), range_at(keys.offset))
        if answer.ranges[0].get('kvs') or value_of(answer.ranges[1]) != here.encode():
            return False
        self._held, self._own = self._granted(session, ttl, answer.term), (name, session)
        conditions = [number_is(keys.session(name), 'version', 0), value_is(keys.offset, here.encode())]
        under = str(self._held.lease)
        held = put_at(keys.session(name), session_text(session), lease=under)
        promised = put_at(keys.promise(name), here, lease=under)
        return self._change(conditions, [held, promised]).is_done

    def renew(self, name: str, session: Session, ttl: int) -> bool:
        self._client.begin()
        held = self._held if self._held is not None and self._held[::2] == (session, seconds_of(ttl)) else None
        term = self._keep_alive(held) if held is not None else None
        answer = self._look(range_at(self._keys.session(name)))
        found = pairs_of(answer.ranges[0])
        if [pair.value for pair in found] != [session_text(session).encode()]:
            return False
        if held is not None and held.lease == found[0].lease and self._counts(held, term, answer.term):
            return True
        return self._move(name, found[0], self._granted(session, ttl, answer.term))

    def release(self, name: str, session: Session) -> None:
        self._client.begin()
        keys = self._keys
        is_held = value_is(keys.session(name), session_text(session).encode())
        self._change([is_held], [removed(range_at(keys.session(name))), removed(range_at(keys.promise(name)))])

    def promise(self, name: str, session: Session, promise: Promise, kept: tuple[int, ...] = ()) -> bool:
        """The promise keeps the lease of etcd's that it has by then. Unless it is of a later offset, the one before is
        read, and must be the same at the end; if it isn't, that is tried once more."""
        self._client.begin()
        keys, its, at = self._keys, session_text(session).encode(), self._keys.promise(name)
        made = same(at, value=coded(promise_text(promise, kept).encode()), ignore_lease=True)
        as_before = {**value_is(at, offset_text(promise).encode()), 'result': 'LESS'}
        for _ in range(3):
            asked = range_at(keys.session(name)), range_at(at)
            answer = self._change([value_is(keys.session(name), its), as_before], [made], *asked)
            if answer.is_done:
                return True
            holder, before = map(value_of, answer.ranges)
            if holder != its or before is None:
                return False
            found = Holder(session, *self._promise_of(before))
            if found.after(promise, kept) == found:
                return True
            as_before = value_is(at, before)
        raise Unanswered(f'{self.address}: another promise of this session was done at the same time')

    def _promise_of(self, value: bytes) -> Told:
        try:
            return promise_of(value.decode())
        except ValueError as fault:
            raise BadLease(f'{self.address}: a lease can not be read: {fault}') from fault

    def _keep_alive(self, held: Held) -> int | None:
        """Renews a lease of etcd's. Returns etcd's term before that; None if there is no such lease."""
        answer = self._client.ask(LEASE_KEEPALIVE, {'ID': str(held.lease)}, repeats=True)
        return int(answer['header']['raft_term']) if int(answer.get('TTL', 0)) > 0 else None

    def _counts(self, held: Held, before: int | None, after: int) -> bool:
        """Whether a renewal counts, by etcd's terms before it and after it: the leader that granted the lease has done
        it."""
        return held.term == before == after

    def _granted(self, session: Session, ttl: int, term: int) -> Held:
        """A new lease of etcd's, for this session."""
        seconds = seconds_of(ttl)
        granted = self._client.ask(LEASE_GRANT, {'TTL': str(seconds)})
        if int(granted['TTL']) < seconds:
            raise LogError(f'{self.address}: etcd granted a lease of {granted["TTL"]} s instead of {seconds} s')
        return Held(session, int(granted['ID']), seconds, term)

    def _move(self, name: str, found: Pair, held: Held) -> bool:
        """Moves a session to a new lease of etcd's, if nothing was done to it since it was found. Its promise stays."""
        key, under = self._keys.session(name), str(held.lease)
        is_same = number_is(key, 'mod_revision', found.modified)
        promise = same(self._keys.promise(name), lease=under, ignore_value=True)
        moved = [put_at(key, session_text(held.session), lease=under), promise]
        try:
            answer = self._change([is_same], moved, range_at(key))
            if not answer.is_done and value_of(answer.ranges[0]) == found.value:
                raise Unanswered(f'{self.address}: an earlier renewal was done at the same time')
        except Unanswered:
            self._held = None  # since a move may be done later, and ends with its lease, none counts before the next
            raise
        if answer.is_done:
            self._held = held
        return answer.is_done

    # The log.

    def append(self, epoch: int, offset: int, rows: Sequence[str], known: Precondition | None = None) -> bool:
        value, here = packed(rows_text(rows)), Promise(epoch, offset)
        self._client.begin()
        keys, end, row = self._keys, offset_text(Promise(epoch, offset + len(rows))), self._keys.row(epoch, offset)
        done = [put_of(row, value), put_at(keys.time(row), str(wall_clock())), put_at(keys.offset, end)]
        return self._add(here, done, self._may_change(here, known, is_append=True))

    def _add(self, here: Promise, done: Sequence[Json], conditions: Sequence[Json]) -> bool:
        """Does this if the log ends there, and on these conditions. Returns whether it did."""
        keys = self._keys
        is_end = value_is(keys.offset, offset_text(here).encode())
        answer = self._change([is_end, *conditions], done, range_at(keys.offset))
        if not answer.is_done:
            check_end(self.address, self._end_of(answer.ranges[0]), here)
        return answer.is_done

    def _may_change(self, here: Promise, known: Precondition | None, is_append: bool) -> list[Json]:
        """The conditions of leases for a change at the end of the log. All promises are in one comparison, which fails
        if there is none. If something is known all other leases than the writer's must be as they were then."""
        keys = self._keys
        if known is None:
            return [{**value_is(keys.promises, offset_text(here).encode()), **range_below(keys.promises)}]
        if self._own is None or not may_change(known.holders, here, known, is_append):
            return [number_is(keys.name, 'version', 0)]  # which is never so
        name, session = self._own
        seen = known.holders.get(name)
        own = seen if seen is not None and seen.session == session else Holder(session, here)
        is_live = value_is(keys.session(name), session_text(session).encode())
        promised = value_is(keys.promise(name), promise_text(own.promise, own.kept).encode())
        return [is_live, *([promised] if name in known.affected else []), *keys.same_but(name, known.revision)]

    def read(self, epoch: int, offset: int) -> Rows:
        keys = self._keys
        ends = map(range_at, (keys.offset, keys.first))
        answer, rows = self._read_with(epoch, offset, lambda answer: epoch in self._there(answer), *ends)
        if rows is None:
            raise no_epoch(self.address, epoch, self.epochs())
        check_end(self.address, self._end_of(answer.ranges[0]), Promise(epoch, offset))
        return rows

    def times(self, epoch: int, offset: int = 0) -> dict[int, int | None]:
        begin, after = (self._keys.time(key) for key in (self._keys.rows(epoch), self._keys.row(epoch, offset)))
        times: dict[int, int | None] = {}
        while True:
            self._client.begin()
            found = pairs_of(self._look(range_from(after, prefix_end(begin), limit=PAGE)).ranges[0])
            times.update({int(pair.key[-10:]): int(pair.value) if pair.value.isdigit() else None for pair in found})
            if len(found) < PAGE:
                return times
            after = found[-1].key + b'\0'

    def _read_with(
        self, epoch: int, offset: int, is_there: Callable[[Answer], bool], *more: Json
    ) -> tuple[Answer, Rows | None]:
        """The rows after that offset, if the answer shows that they are there; and the answer with what else was asked
        for at the same revision: first the end of the log."""
        page = self._keys.page(self._keys.row(epoch, offset), epoch)
        for _ in range(READS):
            try:
                self._client.begin()
                answer = self._look(*more, page)
                return answer, self._rows(epoch, offset, answer) if is_there(answer) else None
            except Compacted as compacted:
                cause = compacted
        raise Unanswered(f'{self.address}: etcd compacted each revision while it was read: {cause}') from cause

    def _rows(self, epoch: int, offset: int, answer: Answer) -> Rows:
        """The rows of an epoch after that offset. The last range of the answer has the first appends; the others are
        read."""
        keys, end = self._keys, self._end_of(answer.ranges[0])
        last = end.offset if end.epoch == epoch else None  # it isn't known of an epoch that is over
        if last is not None and offset >= last:
            return Rows('')
        appends = [self._append_of(epoch, pair) for pair in self._pages(epoch, answer.ranges[-1], answer.revision)]
        if not appends or appends[0][0] != offset:
            appends[:0] = self._within(epoch, offset, answer.revision)
        return rows_of(self.address, epoch, offset, appends, last)

    def _append_of(self, epoch: int, pair: Pair) -> tuple[int, bytes]:
        """An append that is kept: its offset, or NOWHERE if it is something else; and its value."""
        begin = pair.key[len(self._keys.rows(epoch)) :]
        return int(begin) if begin.isdigit() and len(begin) == 10 else NOWHERE, pair.value

    def _pages(self, epoch: int, found: Json, revision: int) -> Iterator[Pair]:
        """The appends of an epoch at one revision; `found` has the first of them. Raises Compacted."""
        while True:
            pairs = pairs_of(found)
            yield from pairs
            if int(found.get('count', 0)) <= len(pairs):
                return
            found = self._more(self._keys.page(pairs[-1].key + b'\0', epoch), revision)

    def _within(self, epoch: int, offset: int, revision: int) -> list[tuple[int, bytes]]:
        """The last append before an offset, if there is one."""
        keys = self._keys
        asked = range_from(keys.rows(epoch), keys.row(epoch, offset), limit=1, sort_order='DESCEND', sort_target='KEY')
        return [self._append_of(epoch, pair) for pair in pairs_of(self._more(asked, revision))]

    def _more(self, asked: Json, revision: int) -> Json:
        """What this range finds at that revision. Raises Compacted."""
        self._client.begin()
        return self._client.ask(KV_RANGE, {**asked, 'revision': str(revision)}, repeats=True)

    def kept(self) -> StoredEpoch:
        self._client.begin()
        answer = self._look(range_at(self._keys.offset))
        end, keys = self._end_of(answer.ranges[0]), self._keys
        page = self._more(keys.page(keys.row(end.epoch, 0), end.epoch), answer.revision)
        pages = self._pages(end.epoch, page, answer.revision)
        return StoredEpoch(end, [self._append_of(end.epoch, pair) for pair in pages])

    def cut(self, end: Promise, append: int, text: str, opening: Opening) -> bool:
        self._client.begin()
        keys = self._keys
        nobody = {**range_below(keys.holders), **number_is(keys.holders, 'version', 0)}
        begin, end_of_all = keys.row(end.epoch, append), prefix_end(keys.rows(end.epoch))
        rest = begin + b'\0' * bool(text), end_of_all
        gone = [removed(range_from(first, last)) for first, last in (rest, tuple(map(keys.time, rest)))]
        left = [put_of(begin, packed(text))] if text else []
        done = [*gone, *left, removed(range_at(keys.requested)), *keys.begin(opening)]
        return self._change([nobody, value_is(keys.offset, offset_text(end).encode())], done).is_done

    # Snapshots and waits.

    def snapshot(self, epoch: int, offset: int, promise_of: str | None = None) -> Snapshot:
        """Reads only sessions and promises that are newer than those that were read before; all of them if one is gone
        that no watch reported."""

        def is_there(answer: Answer) -> bool:
            return self._end_of(answer.ranges[0]).epoch == epoch

        news, part = self._news, self._news.newer(promise_of)
        while True:
            answer, rows = self._read_with(epoch, offset, is_there, *self._keys.standing(part))
            end, maintenance = self._end_of(answer.ranges[0]), maintenance_of(self.address, value_of(answer.ranges[2]))
            check_end(self.address, end, Promise(epoch, offset))
            if maintenance.is_paused and part.promise_of is not None:
                part = news.newer(None)
            elif self._see_all(answer, part) or part[:2] == (0, 0):
                break
            else:
                part = Part(promise_of=part.promise_of)
        requested, holders = requested_of(self.address, end.epoch, news.requested), news.holders(part.promise_of)
        self._seen_wanted, self._seen = news.wanted, news.shown(part.promise_of)
        self._has_promises = part.promise_of is None
        if self._own is not None and news.sessions.get(self._own[0]) == self._own[1]:
            self._own_found = self._own
        there, failing, is_whole = rows or Rows(''), news.failing, self._has_promises
        return Snapshot(end.epoch, there, holders, requested, maintenance, failing, answer.revision, is_whole)

    def _see_all(self, answer: Answer, part: Part) -> bool:
        """Whether this answer was enough to know this part of the state of the log."""
        try:
            return self._news.see_all(answer, part)
        except (ValueError, KeyError) as fault:
            raise BadLease(f'{self.address}: a lease can not be read: {fault}') from fault

    def wait(
        self, epoch: int, offset: int, sessions: Sessions, until: Until, seconds: float, wake: int | None = None
    ) -> None:  # fmt: skip
        """Waits by a watch, which reports promises if the wait is for them. After a snapshot that has all promises it
        also does while there are few leases, whatever the wait is for: so it need not start anew for the next one."""
        end = seconds_of_boot() + seconds
        is_news = self._news.awaited(Promise(epoch, offset), sessions, until, self._seen_wanted, self._seen)
        is_wide = self._is_wide_for(until, len(sessions))
        self._woken = wake
        while not self._hear(is_news, is_wide, max(0.0, end - seconds_of_boot())):
            if seconds_of_boot() >= end or sleep_until_ready(0.0, wake):
                return

    def sees_loss(self, session: Session, seconds: float, wake: int | None = None) -> bool:
        """By the watch that the last wait began, if it is still there."""
        end = seconds_of_boot() + seconds
        while not self._is_lost(session):
            left = max(0.0, end - seconds_of_boot())
            try:
                events = None if self._watch is None else self._watch.events(left, wake)
            except Silent:
                self._break_watch()
                continue
            if events is None:
                sleep_until_ready(left, wake)
            for event in events or ():
                self._news.see(event)
            if not events:
                return self._is_lost(session)
        return True

    def _is_lost(self, session: Session) -> bool:
        """Whether this session held the lease that this process acquired last, and doesn't, by what is known since."""
        own = self._own
        is_known = own is not None and own == self._own_found and own[1] == session
        return is_known and own is not None and self._news.sessions.get(own[0]) != session

    def _is_wide_for(self, until: Until, leases: int) -> bool:
        """Whether a watch reports promises, for such a wait while there are so many leases."""
        return until is not Until.NEWS or self._has_promises and leases <= FEW

    def _hear(self, is_news: Callable[[], bool], is_wide: bool, seconds: float) -> bool:
        """Whether there is what `wait` waits for, after so many seconds at most."""
        watch, is_other = self._watch, self._is_wide != is_wide or is_wide and self._news.lacks_promises
        try:
            if watch is None or watch.endpoint != self._client.endpoint or is_other:
                return self._begin_watch(is_news, is_wide, seconds)
            for event in [] if is_news() else watch.events(seconds, self._woken):
                self._news.see(event)
        except Silent:
            self._break_watch()
        return self._watch is not None and is_news()

    def _begin_watch(self, is_news: Callable[[], bool], is_wide: bool, seconds: float) -> bool:
        """Starts a watch after what was found, unless that is what `wait` waits for. Returns whether it is. The watch
        reports what comes after one revision. What isn't known up to that is read before. Raises Silent."""
        pause = self._broken + WATCH_AGAIN - seconds_of_boot()
        if pause > 0:
            sleep_until_ready(min(pause, seconds), self._woken)
            return False
        self._end_watch()
        if not self._news.is_known(is_wide):
            part = Part(promise_of=None if is_wide else NOBODY)
            self._client.begin()
            self._see_all(self._look(*self._keys.standing(part)), part)
        if is_news():
            return True
        after_found = {'start_revision': str(self._news.revision + 1)}
        self._watch = self._client.watch({**self._keys.watched(is_wide), **after_found})
        self._is_wide = is_wide
        return False

    def _break_watch(self) -> None:
        """The watch broke, so it isn't known what it would have reported."""
        self._end_watch()
        self._news.is_fresh = False
        self._broken = seconds_of_boot()

    def _end_watch(self) -> None:
        if self._watch is not None:
            self._watch.close()
            self._watch = None

    def close(self) -> None:
        self._client.close()
        self._end_watch()

    # Requests to etcd.

    def _look(self, *asked: Json) -> Answer:
        """What these ranges find, at one revision, in the log that was opened."""
        return self._checked(self._client.transact([], ranges(range_at(self._keys.name), *asked)))

    def _change(self, conditions: Sequence[Json], done: Sequence[Json], *refused: Json) -> Answer:
        """Does this if the conditions hold, and else reads these ranges, in the log that was opened."""
        named = self._keys.name
        answer = self._client.transact([value_is(named, self._name), *conditions], done, [range_at(named), *refused])
        return answer if answer.is_done else self._checked(answer)

    def _checked(self, answer: Answer) -> Answer:
        """The answer without the range of the name. Raises NoLog or OtherLog if it isn't from the log that was
        opened."""
        named, *others = answer.ranges
        name = value_of(named)
        if name is None:
            raise NoLog(f'{self.address}: the log was removed')
        if name != self._name:
            raise OtherLog(f'{self.address}: there is another log in its place')
        return answer._replace(ranges=others)

    def _end_of(self, found: Json) -> Promise:
        """The end of the log, as it was found."""
        try:
            return offset_of((value_of(found) or b'').decode())
        except ValueError as fault:
            raise DamagedLog(f'{self.address}: the log has no end') from fault


class News:
    """The state of a log but for its rows: what was found at one revision, and what a watch has reported since."""

    def __init__(self, keys: Keys) -> None:
        self.revision = 0  # of what was found
        self.promised = 0  # up to which revision promises are known, if a snapshot left them out since
        self.is_fresh = False  # whether no watch has reported anything since, or broken
        self.end: bytes | None = None
        self.requested: bytes | None = None
        self.maintenance: bytes | None = None
        self.failing: dict[str, bool] = {}  # as of the last snapshot
        self.sessions: dict[str, Session] = {}
        self.promises: dict[str, Told] = {}  # as of `promised`, and some of later; of sessions that are gone, too
        self._made: dict[str, Holder] = {}  # the last holders that were made, with the promise of this name or of all
        self._made_of: str | None = None
        self._new: set[str] = set()  # of which names something was found since
        self._keys = keys
        self._needs_snapshot = False  # whether only a snapshot can tell what happened

    def newer(self, promise_of: str | None) -> Part:
        """What need be read of sessions and promises, for a snapshot with the promise of this name alone, or with
        all."""
        return Part(0, 0, promise_of) if self._needs_snapshot else Part(self.revision, self.promised, promise_of)

    def is_known(self, is_wide: bool) -> bool:
        """Whether all that a watch with promises or without them reports is known up to the revision of what was
        found."""
        return self.is_fresh and not (is_wide and self.lacks_promises)

    @property
    def lacks_promises(self) -> bool:
        """Whether promises that were made before the revision of what was found are not known. A watch that reports
        them later doesn't help: only what was put after that revision is taken in."""
        return self.promised < self.revision

    @property
    def wanted(self) -> tuple[bytes | None, bytes | None]:
        return self.requested, self.maintenance

    def see_all(self, answer: Answer, part: Part) -> bool:
        """Takes in what the ranges of `standing` found of this part. Returns whether that is all there is: what is gone
        can't be found. If not, nothing changes. Raises ValueError, KeyError if a lease can't be read."""
        keys, (offset, requested, maintenance, *found) = self._keys, answer.ranges[:5]
        held = {keys.node(pair.key, keys.sessions): session_of(pair.value.decode()) for pair in pairs_of(found[0])}
        read = {keys.node(pair.key, keys.promises): promise_of(pair.value.decode()) for pair in pairs_of(found[1])}
        sessions = {**(self.sessions if part.sessions else {}), **held}
        promises = {**(self.promises if part.promises or part.promise_of is not None else {}), **read}
        are_all = part.promise_of is None
        there, expected = (sessions, promises)[: 1 + are_all], found[: 1 + are_all]
        if [len(each) for each in there] != [int(each.get('count', 0)) for each in expected]:
            return False
        for name in sessions if are_all else sessions.keys() & {part.promise_of}:
            promises[name]
        self._new.update(held, read)
        self.sessions, self.promises, self._needs_snapshot = sessions, promises, False
        self.end, self.requested, self.maintenance = value_of(offset), value_of(requested), value_of(maintenance)
        self.promised = answer.revision if are_all else self.promised
        notes = [(pair.key[len(keys.failing) :], pair.value) for pair in pairs_of(answer.ranges[5])]
        self.failing = {name.decode(errors='replace'): note == GAVE_UP.encode() for name, note in notes}
        self.revision, self.is_fresh = answer.revision, True
        return True

    def shown(self, promise_of: str | None) -> dict[str, Told]:
        """The promises in a snapshot with the promise of this name alone, or with all."""
        names = self.sessions if promise_of is None else self.sessions.keys() & {promise_of}
        return {name: self.promises[name] for name in names}

    def holders(self, promise_of: str | None) -> dict[str, Holder]:
        """Who holds a lease, with the promise of this name alone, or with all. If nothing is new these are the same
        objects as before: the holder, and all of them. So in a large group others see that at once."""
        names = self.sessions.keys() & self._new if self._made_of == promise_of else self.sessions.keys()
        shown = self.shown(promise_of)
        made = {name: Holder(self.sessions[name], *shown.get(name, UNKNOWN)) for name in names}
        new = {name: holder for name, holder in made.items() if holder != self._made.get(name)}
        if new or self._made.keys() - self.sessions.keys():
            self._made = {**{name: each for name, each in self._made.items() if name in self.sessions}, **new}
        self._made_of, self._new = promise_of, set()
        return self._made

    def see(self, event: Json) -> None:
        """Takes in an event. When a session goes its promise goes, too, and a watch need not report that."""
        pair, is_put = pair_of(event['kv']), event.get('type', 'PUT') == 'PUT'
        if pair.modified <= self.revision:
            return
        keys, key, self.is_fresh = self._keys, pair.key, False
        try:
            if key == keys.offset:
                self.end = pair.value if is_put else None
            elif key == keys.requested:
                self.requested = pair.value if is_put else None
            elif key == keys.maintenance:
                self.maintenance = pair.value if is_put else None
            elif key.startswith(keys.sessions):
                self._see_session(keys.node(key, keys.sessions), pair.value if is_put else None)
            elif key.startswith(keys.promises):
                self._see_promise(keys.node(key, keys.promises), pair.value if is_put else None)
        except ValueError:
            self._needs_snapshot = True

    def _see_session(self, name: str, value: bytes | None) -> None:
        """Takes in the session of a node, or that it has gone."""
        if value is not None:
            self.sessions[name] = session_of(value.decode())
        else:
            self.sessions.pop(name, None)
            self.promises.pop(name, None)

    def _see_promise(self, name: str, value: bytes | None) -> None:
        """Takes in the promise of a node, or that it has gone."""
        if value is not None:
            self.promises[name] = promise_of(value.decode())
        else:
            self.promises.pop(name, None)

    def awaited(
        self, here: Promise, sessions: Sessions, until: Until, wanted: tuple[bytes | None, bytes | None],
        before: Mapping[str, Told],
    ) -> Callable[[], bool]:  # fmt: skip
        """A function that says whether there is what a wait is for, by what was wanted and promised before."""
        end = offset_text(here).encode()

        def is_news() -> bool:
            if self._needs_snapshot or self.end != end or self.wanted != wanted or self.sessions != sessions:
                return True
            return is_awaited(until, self.promises, (here, ()), before)

        return is_news


def seconds_of(ttl: int) -> int:
    """The seconds of a lease of etcd's for this ttl in nanoseconds, rounded up."""
    return max(1, -(-ttl // SECOND))


def same(key: bytes, **more: object) -> Json:
    """Puts a key that is there already: with its value by `ignore_value`, under its lease by `ignore_lease`."""
    return {'request_put': {'key': coded(key), **more}}


def removed(asked: Json) -> Json:
    """Removes a range of keys."""
    return {'request_delete_range': asked}


def make(client: Client, address: str, keys: Keys, opening: Opening) -> None:
    """Makes a log. Raises LogExists, ForeignLog."""
    named, older = (range_at(key, keys_only=True) for key in (keys.name, keys.older))
    there = [named, older, range_below(keys.root, limit=1, keys_only=True)]
    answer = client.transact([exists(keys.name)], [], there)  # so that it needn't compare the keys of a long log
    if not answer.is_done and not answer.ranges[-1].get('kvs'):
        is_empty = {**range_below(keys.root), **number_is(keys.root, 'version', 0)}
        begun = [put_at(keys.name, f'{FORM} {log_name()}'), put_at(keys.first, f'{opening.epoch:010}')]
        answer = client.transact([is_empty], [*begun, *keys.begin(opening)], there)
        if answer.is_done:
            return
    if answer.is_done or any(found.get('kvs') for found in answer.ranges[:2]):
        raise LogExists(f'{address}: there already is a log')
    raise ForeignLog(f'{address}: there already is something else below its prefix')
