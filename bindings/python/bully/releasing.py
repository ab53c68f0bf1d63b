"""Releases the lease of a session whose process is gone, so that others need not wait for the ttl.

A member says to its watchdog, before each session, how the lease of that session is released (`file_release`, or
`command_release`). The watchdog does so (`release`) once its member is gone and nothing of a worker is left. It runs
with this module and a few small ones alone, so this module loads what takes much memory only when it is used.
"""
from __future__ import annotations

import contextlib
import json
import os
import signal
import sys
from collections.abc import Mapping, Sequence
from typing import TYPE_CHECKING

from .clocks import nanoseconds_of_boot
from .display import message_line

if TYPE_CHECKING:
    import sqlite3

LOST = ' lost'  # the end of the name of a boot whose leases were in a -wal that was lost
HELD = 'delete from leases where name = ? and session = ?'
LOSE = 'update leases set until = ? + until - since, since = ?, boot = ? where boot not like ?'
COUNT = 'select count(*) from leases'
BOOT = 'select boot from leases where name = ? and session = ?'
COUNTED = 'update changes set sessions = sessions + 1'
NAME = 'select name from changes'


def file_release(path: str, log: str, node: str, session: str) -> bytes:
    """How the lease of this session is released from the log of that name in a file."""
    return json.dumps({'file': path, 'log': log, 'node': node, 'session': session}).encode()


def command_release(words: Sequence[str], more: Mapping[str, str]) -> bytes:
    """The same by a command, with more in its environment, as a password: all users see the words."""
    return json.dumps({'command': words, 'more': dict(more)}).encode()


def release(message: bytes, seconds: float) -> None:
    """Releases the lease. This process ends after so many seconds, at most, or becomes the command: a lease that isn't
    released by then ends by itself."""
    signal.signal(signal.SIGALRM, signal.SIG_DFL)
    signal.setitimer(signal.ITIMER_REAL, seconds)
    try:
        what = json.loads(message)
        if 'file' in what:
            release_from_file(what['file'], what['log'], what['node'], what['session'], seconds)
        else:
            become(what['command'], what['more'])
    except Exception as fault:
        sys.stderr.write(f'{message_line("bully", f"a lease is not released, and ends by itself: {fault}")}\n')


def become(words: Sequence[str], more: Mapping[str, str]) -> None:
    """This process becomes the command. Only its errors are read."""
    os.dup2(os.open(os.devnull, os.O_WRONLY), 1)
    os.execve(words[0], list(words), {**os.environ, **more})


def release_from_file(path: str, log: str, node: str, session: str, seconds: float) -> None:
    """Releases the lease of a session from the log in this file, if that has this name. It waits for others for so many
    seconds, at most."""
    file = connected(path, seconds)
    file.execute('pragma synchronous = normal')
    file.execute('begin immediate')
    found = file.execute(BOOT, (node, session)).fetchone()
    if file.execute(NAME).fetchone()[0] == log and found is not None:
        renew_lost(file, f'{path}-wal', found[0], nanoseconds_of_boot())
        release_in(file, node, session)
    file.execute('commit')
    close(file, path)


def connected(path: str, seconds: float, mode: str = 'rw') -> sqlite3.Connection:
    """A connection to this file, whose path is absolute. Each statement is a transaction of its own unless one is
    begun."""
    import sqlite3

    quoted = path.replace('%', '%25').replace('?', '%3f').replace('#', '%23')
    name = f'file:{quoted}?mode={mode}'
    return sqlite3.connect(name, timeout=seconds, isolation_level=None, check_same_thread=False, uri=True)


def close(file: sqlite3.Connection, path: str) -> None:
    """Closes the file. While a lease is noted in it, its -wal stays, so one that isn't there was lost. (SQLite removes
    it with the last connection, unless that one only reads.)"""
    import sqlite3

    keeps = None
    with contextlib.suppress(sqlite3.Error):  # the file is gone, or of another kind
        if file.execute(COUNT).fetchone()[0]:
            keeps = connected(path, 0.0, 'ro')
            keeps.execute(COUNT).fetchone()
    file.close()
    if keeps is not None:
        keeps.close()


def renew_lost(file: sqlite3.Connection, wal: str, boot: str, now: int) -> None:
    """If nobody has written to this -wal yet, but leases are noted in the file itself, which has each, the one before
    was lost (`close`), with renewals and rows, and processes may still use it. So these leases last for another ttl, as
    those of another boot. In a transaction that writes."""
    lost = boot.removesuffix(LOST) + LOST
    if os.stat(wal).st_size == 0 and file.execute(LOSE, (now, now, lost, f'%{LOST}')).rowcount:
        file.execute('delete from boots where boot = ?', (lost,))
        file.execute('insert into boots (boot) values (?)', (lost,))


def release_in(file: sqlite3.Connection, node: str, session: str) -> None:
    """Releases the lease of the session, in a transaction that has begun. Others see that the leases changed."""
    if file.execute(HELD, (node, session)).rowcount:
        file.execute(COUNTED)
