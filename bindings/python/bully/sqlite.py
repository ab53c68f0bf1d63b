"""A log in a file of SQLite, which the processes of one machine share: `SqliteLog`.

Leases end when the machine boots again, so what is written of them need not reach the disk; an append must. `changes`
counts what happens to leases, so that a wait needn't read all of them each time one is renewed.
"""
from __future__ import annotations

import os
import re
import sqlite3
import time
from collections.abc import Iterator, Mapping, Sequence
from contextlib import closing, contextmanager
from typing import NamedTuple

from .boots import boot_name, machine_boot, moment_of
from .clocks import SECOND, nanoseconds_of_boot, sleep_until_ready, wall_clock
from .core import Promise, Session, Until

from .encoding import (
    FORM, check_end, check_form, kept_of, kept_text, log_name, maintenance_of, no_epoch, opening_of, packed,
    requested_of, rows_of, rows_text, session_of, session_text,
)  # fmt: skip
from .epochs import Opening
from .maintenance import Maintenance
from .releasing import LOST, close, connected, release_in, renew_lost
from .repair import StoredEpoch

from .shared_log import (
    NOBODY, BadLease, DamagedLog, DiskFull, ForeignLog, Holder, LogBusy, LogExists, OtherLog, Precondition, ReadOnlyLog,
    Sessions, Snapshot, Unanswered, is_awaited, kept_same, may_change, promises_of, shown_in,
)  # fmt: skip
from .sqlite_file import (
    NEW, OTHERS_BESIDE, OWNER_ALONE, Identity, are_open, beside, check_alone, check_disk, check_file, holder_text,
    identity_of, keep_name, make, owner_text, remove,
)  # fmt: skip
from .values import Rows

APPLICATION = 0x62756C79  # of a file with a log: `buly`
SHORTEST_SLEEP, LONGEST_SLEEP = 0.001, 0.05  # seconds between two polls of a file
MANY = 128  # leases: while there are more, each wait polls less often, so that all together poll no more often
SIGHT = SECOND // 4  # nanoseconds between two checks of which files are there, at most
PRUNED_AT_ONCE = 100  # appends
TRIES = 100  # how often what was committed is moved from the -wal into the file
NEVER = 2**63 - 1

# `changes` also has the name of the log and the maintenance. `boots` has the boots of the machine that have used the
# log, in order: an earlier one is over, unless it is another time namespace of the same boot, which may come again. One
# whose name ends with LOST stands for those who used a -wal that was lost. A record of `log` has the rows of one
# append, each with its line end and all compressed, the offset of the first one, and the time of the append. An epoch
# that was pruned keeps its opening, without a count. `kept` has the partitions that a promise keeps, `failing` the
# nodes whose work fails.
TABLES = """
create table epochs (epoch integer primary key, opening text not null, requested text, count integer);
create table log (epoch integer, offset integer, rows blob not null, time integer, primary key (epoch, offset));
create table leases (
    name text primary key, session text not null, epoch integer not null, offset integer not null, kept text not null,
    boot text not null, since integer not null, until integer not null
);
create table changes (
    name text not null, sessions integer not null, promises integer not null, maintenance text not null
);
create table boots (number integer primary key, boot text not null unique);
create table failing (name text primary key, gave_up integer not null);
"""
LEASES = 'select name, session, epoch, offset, kept, until from leases where boot = ? and until > ?'
OTHER_CLOCK = 'another time namespace holds leases: all members must share one, /proc/self/ns/time'
REMOVED = 'its -wal or its -shm was removed, and others use another one'
STILL_WORK = 'its -wal was lost, and members that used it may still work'
OTHER_BOOT = 'another boot has used it after this one: all members must see one /proc/sys/kernel/random/boot_id'

# Errors of SQLite, by a part of the message, and what they mean. The first that matches counts.
MEANINGS = (
    ('not a database', ForeignLog), ('malformed|no such|decode', DamagedLog), ('read-?only', ReadOnlyLog),
    ('locked|busy', LogBusy), ('is full', DiskFull), ('unable to open', ReadOnlyLog),
)  # fmt: skip


def connection(path: str, patience: float, mode: str = 'rw') -> sqlite3.Connection:
    """A connection to this file. Each statement is a transaction of its own unless one is begun."""
    return connected(os.path.abspath(path), patience, mode)


def open_epoch(file: sqlite3.Connection, opening: Opening) -> None:
    """Starts the epoch of this opening."""
    file.execute('insert into epochs values (?, ?, null, 0)', (opening.epoch, opening.text()))


@contextmanager
def calls(path: str) -> Iterator[None]:
    """Calls of SQLite on this file. Its errors are raised as what they mean."""
    try:
        yield
    except sqlite3.Error as error:
        said = str(error)
        meaning = next((meaning for part, meaning in MEANINGS if re.search(part, said)), Unanswered)
        more = holder_text(f'{os.path.realpath(path)}-shm') if meaning is LogBusy else ''
        more = owner_text(path) if meaning is ReadOnlyLog else more
        raise meaning(f'{path}: {said}{more}') from error


def form_of(path: str, file: sqlite3.Connection) -> int:
    """The form of the log in this file. Raises ForeignLog, sqlite3.Error."""
    if not file.execute('select count(*) from sqlite_master').fetchone()[0]:
        raise ForeignLog(f'{path}: an empty file')
    if file.execute('pragma application_id').fetchone()[0] != APPLICATION:
        raise ForeignLog(f'{path}: another kind of file')
    return int(file.execute('pragma user_version').fetchone()[0])


class StoredLease(NamedTuple):
    """A lease: its holder, and when it ends."""

    holder: Holder
    until: int


def lease_of(where: str, name: str, session: str, epoch: int, offset: int, kept: str, until: int) -> StoredLease:
    """The lease of that name, from a row of the table. Raises BadLease."""
    try:
        if not isinstance(until, int):
            raise ValueError(f'{until!r} is not a time')
        return StoredLease(Holder(session_of(session), Promise(int(epoch), int(offset)), kept_of(str(kept))), until)
    except (ValueError, TypeError) as fault:
        raise BadLease(f'{where}: the lease of {name} can not be read: {fault}') from fault


class Standing(NamedTuple):
    """The state of a log but for its rows and leases: a moment before it was read; its end, the requested settings, the
    maintenance, its name, its last boot, and counts of changes."""

    now: int
    end: Promise
    requested: str | None
    maintenance: str
    name: str
    boot: str | None
    session_changes: int
    promise_changes: int

    @property
    def wanted(self) -> tuple[str | None, str]:
        return self.requested, self.maintenance


class SqliteLog:
    """A log in a file of SQLite, which may not be on a network. Only one thread at a time may use it, and no child by
    fork."""

    form = FORM

    def __init__(self, path: os.PathLike[str] | str, patience: float = 1.0, reads: bool = False) -> None:
        """Opens the log of this file, which `create` made. Each call waits for others for so many seconds; a reader
        waits for nobody.

        Raises NoLog, ForeignLog, DamagedLog, ReadOnlyLog, Unanswered."""
        self.path = os.fspath(path)
        self._identity = identity_of(check_file(self.path))
        self._beside: list[Identity] | None = None  # the files beside it, once the log is used
        check_alone(self.path)
        self._boot = boot_name()
        self._sight = 0  # when it must check again which files are there
        self._name = ''  # of the log, once it is known
        self._read: Mapping[str, Holder] = {}  # who held a lease when leases were last read
        self._bare: Mapping[str, Holder] = {}  # the same without promises
        self._live: dict[str, Session] = {}  # the same, their sessions
        self._session_changes = self._promises_read = -1  # the counts of these changes at that time
        self._earliest = 0  # none of these leases ends before
        self._seen_wanted: tuple[str | None, str] = None, ''
        self._seen: Mapping[str, Holder] = {}  # who held a lease in the last snapshot
        self._version = self._promise_changes = -1  # of what a wait saw last
        self._sleep = SHORTEST_SLEEP  # between two polls of a wait
        with calls(self.path):
            self._file = connection(self.path, patience)
        try:
            self._open('deferred' if reads else 'immediate')  # so that it notices at once a file that can't be written
        except BaseException:
            self.close()
            raise

    @staticmethod
    def create(path: os.PathLike[str] | str, opening: Opening, mode: int = OWNER_ALONE) -> SqliteLog:
        """Makes the file, with this mode, with a log that has this opening, and opens it. If the process is killed
        there is all of it, or nothing. Raises LogExists, ForeignLog, ReadOnlyLog, DiskFull, Unanswered."""
        name = os.fspath(path)
        room = f'{name}.{log_name()}{NEW}'  # processes of two containers may have the same number
        try:
            check_disk(os.path.dirname(name) or '.')
            make(room, mode)
            with calls(name), closing(connection(room, 1.0)) as file:
                kind = f'pragma application_id = {APPLICATION}; pragma user_version = {FORM}'
                file.executescript(f'pragma journal_mode = wal; {kind}; {TABLES}')
                file.execute("insert into changes values (?, 0, 0, '')", (log_name(),))
                open_epoch(file, opening)
            os.link(room, name)
            keep_name(name)
        except FileExistsError:
            raise LogExists(f'{name}: something is there already') from None
        except OSError as error:
            raise ReadOnlyLog(f'{name}: {error.strerror}') from error
        finally:
            remove(room)
        return SqliteLog(name)

    def _open(self, kind: str) -> None:
        with calls(self.path):
            check_form(self.path, form_of(self.path, self._file), self.form)
            mode = self._file.execute('pragma journal_mode = wal').fetchone()[0]
            if mode != 'wal':
                raise ForeignLog(f'{self.path}: SQLite keeps a journal of mode {mode} here, and can not keep a -wal')
            self._file.execute('pragma synchronous = normal')
        with self._transaction(kind) as standing:
            self._name, self._beside = standing.name, beside(self.path)
            if len(self._beside) < 2 or not are_open(self._beside):
                raise OtherLog(f'{self.path}: {REMOVED}')
            if kind != 'deferred':
                renew_lost(self._file, f'{os.path.realpath(self.path)}-wal', self._boot, standing.now)

    @property
    def name(self) -> str:
        """The name of the log, which no other log has."""
        return self._name

    # Epochs.

    def epochs(self) -> range:
        with calls(self.path):
            first = self._one('select coalesce(min(epoch), 0) from epochs where count is not null')
            return range(first, self._standing().end.epoch + 1)

    def opening(self, epoch: int | None = None) -> Opening:
        with calls(self.path):
            number = self._standing().end.epoch if epoch is None else epoch
            found = self._file.execute('select opening from epochs where epoch = ?', (number,)).fetchone()
            if found is None:
                raise no_epoch(self.path, number, self.epochs())
        return opening_of(self.path, number, found[0])

    def roll_over(self, epoch: int, offset: int, opening: Opening, known: Precondition | None = None) -> bool:
        with self._syncing() as standing:
            if not self._may_change(standing, Promise(epoch, offset), known, is_append=False):
                return False
            if opening.bare != self.opening(epoch).after(requested_of(self.path, epoch, standing.requested)):
                return False
            open_epoch(self._file, opening)
            self._file.execute('update epochs set requested = null where epoch = ?', (epoch,))
        return True

    def ask(self, requested: Opening, epoch: int) -> bool:
        with self._syncing() as standing:
            if epoch != standing.end.epoch or requested.epoch != epoch + 1:
                return False
            self._file.execute('update epochs set requested = ? where epoch = ?', (requested.bare.text(), epoch))
        return True

    def cancel(self, epoch: int) -> None:
        with self._syncing():
            self._file.execute('update epochs set requested = null where epoch = ?', (epoch,))

    def set_maintenance(self, maintenance: Maintenance, before: Maintenance | None) -> bool:
        with self._syncing() as standing:
            if before is not None and before != maintenance_of(self.path, standing.maintenance):
                return False
            self._file.execute('update changes set maintenance = ?', (maintenance.text(),))
        return True

    def note(self, name: str, gave_up: bool | None) -> None:
        with self._transaction():
            self._file.execute('delete from failing where name = ?', (name,))
            if gave_up is not None:
                self._file.execute('insert into failing values (?, ?)', (name, gave_up))

    def give_up(self, name: str, heir: str, session: Session) -> bool:
        with self._transaction() as standing:
            noted = self._one('select count(*) from failing where name = ?', heir)
            if noted or self._holder(heir, session, standing) is None:
                return False
            self._file.execute('insert or replace into failing values (?, ?)', (name, True))
        return True

    def prune(self, first: int) -> None:
        """The epochs are gone at once. Their rows are removed afterwards, a part at a time, so that nobody waits for
        long."""
        with self._transaction() as standing:
            first = min(first, standing.end.epoch)
            self._file.execute('update epochs set count = null where epoch < ?', (first,))
        with calls(self.path):
            asked = 'delete from log where rowid in (select rowid from log where epoch < ? limit ?)'
            while self._file.execute(asked, (first, PRUNED_AT_ONCE)).rowcount:
                time.sleep(SHORTEST_SLEEP)  # others have their turn

    # Leases.

    def acquire(self, name: str, session: Session, promise: Promise, ttl: int) -> bool:
        with self._transaction() as standing:
            now = standing.now
            asked = 'select count(*) from leases where name = ? and boot = ? and until > ?'
            if promise != standing.end or self._one(asked, name, self._boot, now):
                return False
            if standing.boot != self._boot and self._enter_boot(standing):
                return False
            held = name, session_text(session), promise.epoch, promise.offset, '', self._boot, now, now + ttl
            self._file.execute('insert or replace into leases values (?, ?, ?, ?, ?, ?, ?, ?)', held)
            self._file.execute('update changes set sessions = sessions + 1')
        self._write_through()  # before anybody works by it: `renew_lost`
        return True

    def _enter_boot(self, standing: Standing) -> bool:
        """This boot uses the log from now on. Whether a later epoch starts by that: a -wal was lost, maybe with rows,
        and their tokens may not come again. Raises LogBusy or ForeignLog if others may still hold leases."""
        self._see_others(standing)
        self._file.execute('delete from boots where boot = ?', (self._boot,))
        self._file.execute('insert into boots (boot) values (?)', (self._boot,))
        if not (standing.boot or '').endswith(LOST):
            return False
        epoch = standing.end.epoch
        requested, opening = requested_of(self.path, epoch, standing.requested), self.opening(epoch)
        self._file.execute('update epochs set requested = null')
        open_epoch(self._file, opening.next(requested, opening.table))
        return True

    def _write_through(self) -> None:
        """What was committed is in the file itself, and not only in its -wal. If a process is suspended while it reads,
        that isn't to be had, and nobody waits for it."""
        with calls(self.path):
            wanted = 0  # frames of the -wal
            for _ in range(TRIES):
                is_busy, frames, done = self._file.execute('pragma wal_checkpoint(passive)').fetchone()
                wanted = wanted if is_busy else wanted or frames
                if not is_busy and (done >= wanted or frames < wanted):  # fewer, once all were moved
                    return
                time.sleep(SHORTEST_SLEEP)

    def _see_others(self, standing: Standing) -> None:
        """Raises LogBusy if another boot may hold leases; ForeignLog if another time namespace of this boot does."""
        if standing.boot != self._boot and self._are_elsewhere(standing.now):
            if (standing.boot or '').endswith(LOST):
                raise LogBusy(f'{self.path}: {STILL_WORK}')
            if self._is_same_boot(standing):
                raise ForeignLog(f'{self.path}: {OTHER_CLOCK}')
            raise LogBusy(f'{self.path}: another boot may still hold leases')

    def _is_same_boot(self, standing: Standing) -> bool:
        """Whether the log was last used in this boot of the machine, maybe in another time namespace."""
        return machine_boot(standing.boot or '') == machine_boot(self._boot)

    def _are_elsewhere(self, now: int) -> bool:
        """Whether another boot may hold leases, by this clock: leases of earlier boots mostly have other times."""
        others = self._file.execute('select distinct boot from leases where boot != ?', (self._boot,)).fetchall()
        asked = 'select count(*) from leases where boot = ? and since <= ? and until > ?'
        there = [(boot, moment_of(now, self._boot, str(boot))) for boot, in others]
        return any(self._one(asked, boot, moment, moment) for boot, moment in there)

    def renew(self, name: str, session: Session, ttl: int) -> bool:
        """If the lease ends sooner by that than it did, others must read it anew, because none does before its end."""
        with self._transaction() as standing:
            lease, until = self._leases(standing, name).get(name), standing.now + ttl
            if lease is None or lease.holder.session != session:
                return False
            self._file.execute('update leases set since = ?, until = ? where name = ?', (standing.now, until, name))
            if until < lease.until:
                self._file.execute('update changes set sessions = sessions + 1')
        return True

    def release(self, name: str, session: Session) -> None:
        with self._transaction():
            release_in(self._file, name, session_text(session))

    def promise(self, name: str, session: Session, promise: Promise, kept: tuple[int, ...] = ()) -> bool:
        with self._transaction() as standing:
            holder = self._holder(name, session, standing)
            if holder is None:
                return False
            after = holder.after(promise, kept)
            values = after.promise.epoch, after.promise.offset, kept_text(after.kept)
            self._file.execute('update leases set epoch = ?, offset = ?, kept = ? where name = ?', (*values, name))
            self._file.execute('update changes set promises = promises + 1')
        return True

    def _holder(self, name: str, session: Session, standing: Standing) -> Holder | None:
        """The holder of the lease of this name, if it is this session."""
        found = self._leases(standing, name).get(name)
        return found.holder if found is not None and found.holder.session == session else None

    def _leases(self, standing: Standing, name: str | None = None) -> dict[str, StoredLease]:
        """The leases that are held, or the one of this name. One that ended since the moment of `standing` is there
        still, but none is missing that was renewed since."""
        asked, words = (LEASES, ()) if name is None else (f'{LEASES} and name = ?', (name,))
        found = self._file.execute(asked, (self._boot, standing.now, *words)).fetchall()
        return {name: lease_of(self.path, name, *values) for name, *values in found}

    def _check_files(self) -> None:
        """Raises OtherLog if another file is in the place of one of its own, or others may reach the file by another
        path, which has other files beside it: there may be two histories then."""
        found = check_file(self.path)
        if identity_of(found) != self._identity:
            raise OtherLog(f'{self.path}: there is another file in its place')
        if found.st_nlink > 1:
            raise OtherLog(f'{self.path}: it has another name, a hard link, {OTHERS_BESIDE}')
        if self._beside not in (None, beside(self.path)):
            raise OtherLog(f'{self.path}: {REMOVED}')
        self._sight = nanoseconds_of_boot() + SIGHT

    # The log.

    def append(self, epoch: int, offset: int, rows: Sequence[str], known: Precondition | None = None) -> bool:
        if offset == 0:
            self._write_through()  # so that no epoch comes again in which a member worked: `_enter_boot`
        value = packed(rows_text(rows))
        with self._syncing() as standing:
            if not self._may_change(standing, Promise(epoch, offset), known, is_append=True):
                return False
            self._file.execute('insert into log values (?, ?, ?, ?)', (epoch, offset, value, wall_clock()))
            self._file.execute('update epochs set count = ? where epoch = ?', (offset + len(rows), epoch))
        return True

    def _may_change(self, standing: Standing, here: Promise, known: Precondition | None, is_append: bool) -> bool:
        check_end(self.path, standing.end, here)
        return here == standing.end and may_change(self._holders(standing), here, known, is_append)

    def _holders(self, standing: Standing) -> dict[str, Holder]:
        """Who holds a lease."""
        return {name: lease.holder for name, lease in self._leases(standing).items()}

    def read(self, epoch: int, offset: int) -> Rows:
        with self._transaction('deferred') as standing:
            found = self._file.execute('select count from epochs where epoch = ?', (epoch,)).fetchone()
            if found is None or found[0] is None:
                raise no_epoch(self.path, epoch, self.epochs())
            check_end(self.path, standing.end, Promise(epoch, offset))
            return self._rows(epoch, offset, found[0])

    def times(self, epoch: int, offset: int = 0) -> dict[int, int | None]:
        asked = 'select offset, time from log where epoch = ? and offset >= ?'
        with calls(self.path):
            return dict(self._file.execute(asked, (epoch, offset)).fetchall())

    def _rows(self, epoch: int, offset: int, count: int) -> Rows:
        """The rows of an epoch after that offset; the epoch has `count` rows."""
        if offset >= count:
            return Rows('')
        first = self._one('select coalesce(max(offset), 0) from log where epoch = ? and offset <= ?', epoch, offset)
        return rows_of(self.path, epoch, offset, self._appends(epoch, first), count)

    def _appends(self, epoch: int, first: int) -> list[tuple[int, bytes]]:
        """The appends of an epoch from that offset on, as they are kept."""
        asked = 'select offset, cast(rows as blob) from log where epoch = ? and offset >= ? order by offset'
        return self._file.execute(asked, (epoch, first)).fetchall()

    def kept(self) -> StoredEpoch:
        with self._transaction('deferred') as standing:
            return StoredEpoch(standing.end, self._appends(standing.end.epoch, 0))

    def cut(self, end: Promise, append: int, text: str, opening: Opening) -> bool:
        with self._syncing() as standing:
            live = self._one('select count(*) from leases where boot = ? and until > ?', self._boot, standing.now)
            if standing.end != end or live or self._are_elsewhere(standing.now):
                return False
            self._file.execute('delete from log where epoch = ? and offset >= ?', (end.epoch, append + bool(text)))
            asked = 'update log set rows = ? where epoch = ? and offset = ?'
            self._file.execute(asked, (packed(text), end.epoch, append))
            left = append + text.count('\n')
            self._file.execute('update epochs set count = ?, requested = null where epoch = ?', (left, end.epoch))
            open_epoch(self._file, opening)
        return True

    # Snapshots and waits.

    def snapshot(self, epoch: int, offset: int, promise_of: str | None = None) -> Snapshot:
        """Reads all leases only if a session is new, or one may have ended; if it must have all promises, also if one
        of these is new. Otherwise it has them from the last time."""
        with self._transaction('deferred') as standing:
            end = standing.end
            check_end(self.path, end, Promise(epoch, offset))
            rows = self._rows(epoch, offset, end.offset) if epoch == end.epoch else Rows('')
            requested = requested_of(self.path, end.epoch, standing.requested)
            maintenance = maintenance_of(self.path, standing.maintenance)
            alone = None if maintenance.is_paused else promise_of
            holders, failing = self._look_around(standing, alone), self._failing()
            found = Snapshot(end.epoch, rows, holders, requested, maintenance, failing, 0, alone is None)
        self._seen_wanted, self._seen = standing.wanted, found.holders
        return found

    def _look_around(self, standing: Standing, promise_of: str | None) -> Mapping[str, Holder]:
        """Who holds a lease, with the promise of this name alone, or with all. A holder is the same object as before if
        nothing about it is new."""
        self._see_others(standing)
        if self._are_old(standing) or promise_of is None and standing.promise_changes != self._promises_read:
            self._read_leases(standing)
        if promise_of is None:
            return self._read
        own = {name: lease.holder for name, lease in self._leases(standing, promise_of).items()}
        return {**self._bare, **own}

    def _are_old(self, standing: Standing) -> bool:
        """Whether another session may hold a lease than when leases were read last, or one may have ended since."""
        return standing.session_changes != self._session_changes or standing.now >= self._earliest

    def _read_leases(self, standing: Standing) -> None:
        """Reads all leases, and keeps them for waits and for later snapshots."""
        leases = self._leases(standing)
        there = {name: lease.holder for name, lease in leases.items()}
        self._read, self._bare = kept_same(self._read, there), kept_same(self._bare, shown_in(there, NOBODY))
        self._live = {name: holder.session for name, holder in there.items()}
        self._session_changes, self._promises_read = standing.session_changes, standing.promise_changes
        self._earliest = min((lease.until for lease in leases.values()), default=NEVER)

    def _failing(self) -> dict[str, bool]:
        """The notes of nodes whose work fails, and whether they have given up."""
        found = self._file.execute('select name, gave_up from failing').fetchall()
        return {name: bool(gave_up) for name, gave_up in found}

    def sees_loss(self, session: Session, seconds: float, wake: int | None = None) -> bool:
        """Nobody takes a lease away from a file."""
        sleep_until_ready(seconds, wake)
        return False

    def wait(
        self, epoch: int, offset: int, sessions: Sessions, until: Until, seconds: float, wake: int | None = None
    ) -> None:  # fmt: skip
        """After a wait without news the next one polls at the pace that this one had reached; after news it starts fast
        again, because more often follows soon."""
        end, longest = nanoseconds_of_boot() + int(seconds * SECOND), LONGEST_SLEEP * max(1.0, len(sessions) / MANY)
        self._version = self._promise_changes = -1
        while not self._is_news(Promise(epoch, offset), sessions, until):
            now = nanoseconds_of_boot()
            if now >= end:
                return
            lease = max(SHORTEST_SLEEP, (self._earliest - now) / SECOND)
            if sleep_until_ready(min(self._sleep, (end - now) / SECOND, lease), wake):
                break
            self._sleep = min(2 * self._sleep, longest)
        self._sleep = SHORTEST_SLEEP

    def _is_news(self, here: Promise, sessions: Sessions, until: Until) -> bool:
        """Whether there is what `wait` waits for. Only a commit and the end of a lease can bring it."""
        if nanoseconds_of_boot() >= self._sight:
            self._check_files()
        with calls(self.path):
            version = self._one('pragma data_version')
            is_end = nanoseconds_of_boot() >= self._earliest  # a lease has ended, unless it was renewed
            if version == self._version and not is_end:
                return False
            self._version, standing = version, self._standing()
            if self._are_old(standing):
                self._see_others(standing)
                self._read_leases(standing)
            end = standing.end
            if end != here or standing.wanted != self._seen_wanted or self._live != sessions:
                return True
            is_same, self._promise_changes = standing.promise_changes == self._promise_changes, standing.promise_changes
            return until is not Until.NEWS and not is_same and self._is_awaited(standing, until, here)

    def _is_awaited(self, standing: Standing, until: Until, here: Promise) -> bool:
        return is_awaited(until, promises_of(self._holders(standing)), (here, ()), promises_of(self._seen))

    def close(self) -> None:
        close(self._file, os.path.abspath(self.path))

    # Calls of SQLite.

    def _standing(self) -> Standing:
        """The state, by one statement: outside of a transaction, what others did between two would look like that of
        another boot. The clock is read before the file: a lease that is renewed after that was held at that moment. In
        a transaction that writes nobody else renews one, so there both are of one moment."""
        now = nanoseconds_of_boot()
        boot = '(select boot from boots order by number desc limit 1)'
        used = '(select count(*) from boots where boot = ?)'
        columns = f'epoch, count, requested, maintenance, name, {boot}, sessions, promises, {used}'
        asked = f'select {columns} from epochs, changes order by epoch desc limit 1'
        found = self._file.execute(asked, (self._boot,)).fetchone()
        if found is None or not all(isinstance(number, int) for number in (*found[:2], *found[-3:])):
            raise DamagedLog(f'{self.path}: the log has no opening, or no end')
        standing, is_used = Standing(now, Promise(*found[:2]), *found[2:-1]), bool(found[-1])
        if standing.name != self._name and self._name:
            raise OtherLog(f'{self.path}: there is another log in its place')
        if standing.boot != self._boot and is_used and not self._is_same_boot(standing):
            raise ForeignLog(f'{self.path}: {OTHER_BOOT}')
        return standing

    def _one(self, asked: str, *arguments: int | str) -> int:
        return int(self._file.execute(asked, arguments).fetchone()[0])

    @contextmanager
    def _syncing(self) -> Iterator[Standing]:
        """A transaction that is on the disk at its end."""
        with calls(self.path):
            self._file.execute('pragma synchronous = full')
            try:
                with self._transaction() as standing:
                    yield standing
            finally:
                self._file.execute('pragma synchronous = normal')

    @contextmanager
    def _transaction(self, kind: str = 'immediate') -> Iterator[Standing]:
        """One transaction, with the state of the log in it. A return commits it, and an exception rolls it back."""
        self._check_files()
        with calls(self.path):
            self._file.execute(f'begin {kind}')
            try:
                yield self._standing()
                self._file.execute('commit')
            except BaseException:
                if self._file.in_transaction:
                    self._file.execute('rollback')
                raise
