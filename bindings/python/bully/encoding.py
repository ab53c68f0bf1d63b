"""The text form of what stores keep, and the checks that all stores share."""
from __future__ import annotations

import secrets
import zlib
from collections.abc import Iterable, Sequence

from .core import Promise, Session
from .epochs import Opening
from .faults import BullyError
from .maintenance import Maintenance
from .shared_log import DamagedLog, ForeignLog, NoEpoch, OlderLog
from .values import Rows

FORM = 4  # of a log
BEFORE = 3  # the form before it, which `bully.history` reads
BY_HISTORY = '; history writes it as a trace, and init makes a new log'
LARGEST = 2**24  # bytes of an append before it is compressed: the largest rebalance has some 400,000


def check_form(where: str, form: int, wanted: int) -> None:
    """Raises ForeignLog if the log doesn't have the form that is wanted."""
    if form != wanted:
        version, is_before = 'an older' if form < wanted else 'a newer', form == BEFORE
        said = f'{where}: a log of format {form}, by {version} version, not of format {wanted}'
        raise OlderLog(said + BY_HISTORY) if is_before else ForeignLog(said)


def rows_text(rows: Sequence[str]) -> str:
    """The rows of an append as one text, each with its line end. Raises ValueError."""
    text = rows.text if isinstance(rows, Rows) else ''.join([f'{row}\n' for row in rows])
    if not rows or text.count('\n') != len(rows):
        raise ValueError('an append needs at least one row, and no row may have a line end')
    return text


def log_name() -> str:
    """A name that no other log has."""
    return secrets.token_hex(8)


def check_end(where: str, end: Promise, here: Promise) -> None:
    """Raises DamagedLog if the log ends before an offset up to which it was read."""
    if here > end:
        read, ends = f'offset {here.offset} of epoch {here.epoch}', f'offset {end.offset} of epoch {end.epoch}'
        back = 'its store has lost rows, as after a restore from a backup'
        raise DamagedLog(f'{where}: the log was read up to {read}, and now ends at {ends}: {back}')


def no_epoch(where: str, epoch: int, there: range) -> NoEpoch:
    """The error that the epoch isn't there, with those that are."""
    are_there = f'{there[0]} to {there[-1]}' if len(there) > 1 else f'{there[0]}'
    return NoEpoch(f'{where}: there is no epoch {epoch}, only {are_there}')


def opening_of(where: str, epoch: int, text: str | bytes) -> Opening:
    """The opening of an epoch, as a store keeps it. Raises DamagedLog."""
    try:
        opening = Opening.parse(text if isinstance(text, str) else text.decode())
    except (ValueError, KeyError, TypeError, BullyError) as fault:
        raise DamagedLog(f'{where}: the opening of epoch {epoch} can not be read: {fault}') from fault
    if opening.epoch != epoch:
        raise DamagedLog(f'{where}: epoch {epoch} has the opening of epoch {opening.epoch}')
    return opening


def packed(text: str) -> bytes:
    """The rows of an append, compressed for a store. Raises ValueError if they have more than LARGEST bytes."""
    rows = text.encode()
    if len(rows) > LARGEST:
        raise ValueError(f'an append has {len(rows)} bytes, and may have {LARGEST} at most')
    return zlib.compress(rows)


def unpacked(value: bytes) -> bytes:
    """What `packed` compressed: LARGEST bytes at most, which need not be rows. Raises ValueError."""
    unpacker = zlib.decompressobj()
    try:
        rows = unpacker.decompress(value, LARGEST + 1)
    except zlib.error as fault:
        raise ValueError(str(fault)) from fault
    if len(rows) > LARGEST or not unpacker.eof or unpacker.unused_data:
        raise ValueError('it is too long, or its end is missing, or there is more after it')
    return rows


def rows_of(where: str, epoch: int, offset: int, appends: Iterable[tuple[int, bytes]], end: int | None) -> Rows:
    """The rows of an epoch after that offset, each with its line end. The appends are as a store keeps them, by their
    offsets; the first one has the row at that offset. The log ends at `end`, if that is known. Raises DamagedLog."""
    kept = list(appends)
    first = here = kept[0][0] if kept else offset
    texts: list[str] = []
    for begin, value in kept:
        if begin != here:
            break
        texts.append(append_text(where, epoch, begin, value))
        here += texts[-1].count('\n')
    if len(texts) < len(kept) or first > offset or end not in (None, here):
        said = f'rows of epoch {epoch} are missing after offset {offset if first > offset else here}'
        raise DamagedLog(f'{where}: {said}, or there is something else between them')
    return plain_rows(where, epoch, first, ''.join(texts)).after(offset - first)


def append_text(where: str, epoch: int, offset: int, value: bytes) -> str:
    """The rows of the append at that offset, as a store keeps it. Raises DamagedLog."""
    try:
        text = unpacked(value).decode()
        if not text.endswith('\n'):
            raise ValueError('it does not end with a row')
    except ValueError as fault:
        raise DamagedLog(f'{where}: the append at offset {offset} of epoch {epoch} can not be read: {fault}') from fault
    return text


def plain_rows(where: str, epoch: int, offset: int, text: str) -> Rows:
    """The rows of an epoch in this text, from that offset on. Raises DamagedLog."""
    if '\r' in text or '\n\n' in text or text.startswith('\n'):
        lines = enumerate(Rows(text), offset)
        number, bad = next((number, row) for number, row in lines if not row or '\r' in row)
        raise DamagedLog(f'{where}: the line at offset {number} of epoch {epoch} is not a row: {bad!r}')
    return Rows(text)


def maintenance_of(where: str, text: str | bytes | None) -> Maintenance:
    """The maintenance, as a store keeps it. Raises DamagedLog."""
    try:
        return Maintenance.parse(text.decode() if isinstance(text, bytes) else text or '')
    except (ValueError, KeyError, TypeError, AttributeError) as fault:
        raise DamagedLog(f'{where}: the maintenance can not be read: {fault}') from fault


def requested_of(where: str, epoch: int, text: str | bytes | None) -> Opening | None:
    """The settings that are requested in an epoch, as a store keeps them. Raises DamagedLog."""
    return None if text is None else opening_of(where, epoch + 1, text)


def session_text(session: Session) -> str:
    """The text of a session, for a store."""
    return f'{session.process}.{session.number}'


def session_of(text: str) -> Session:
    """The session of such a text. Raises ValueError."""
    process, number = text.split('.')
    return Session(int(process), int(number))


def kept_text(kept: tuple[int, ...]) -> str:
    """The text of partitions that a promise keeps, for a store: empty if it keeps nothing."""
    return ' '.join(map(str, kept))


def kept_of(text: str) -> tuple[int, ...]:
    """The partitions in such a text. Raises ValueError."""
    kept = tuple(map(int, text.split(' '))) if text else ()
    if text != kept_text(kept) or list(kept) != sorted({each for each in kept if each >= 0}):
        raise ValueError(f'{text!r} has no partitions in rising order')
    return kept
