"""What is noted of a member's sessions, so that the lease of one whose process is gone can be released at once."""
from __future__ import annotations

import argparse
import os
import sys
from collections.abc import Callable
from contextlib import suppress
from pathlib import Path
from typing import TYPE_CHECKING

from .core import Session
from .encoding import session_of, session_text
from .releasing import command_release, file_release
from .shared_log import Log
from .store_options import OF_ETCD, PASSWORD, BadWords, FileStore, Store, name_of

if TYPE_CHECKING:
    from .worker import Workers

# Runs the command by Python's own modules and those of one folder: no file of the working directory, and no path of the
# environment, counts.
COMMAND = 'import sys; sys.path.append(sys.argv.pop(1)); from bully_member import main; sys.exit(main())'


class SessionNotes:
    """Notes the session of a member before it may hold the lease of its node: in a file, if one is wanted, and at the
    watchdog. While no session may hold it the file is empty."""

    def __init__(self, file: str | None, workers: Workers) -> None:
        """Raises OSError."""
        self._file, self._workers = file, workers
        if file is not None and not os.path.exists(file):
            write_session(file, None)

    def acquires(self, session: Session) -> None:
        """This session may hold the lease from now on. Raises OSError."""
        if self._file is not None:
            write_session(self._file, session)
        self._workers.hear_session(session)

    def forget(self) -> None:
        """The member has left in order, and has released the lease."""
        self._workers.forget_session()
        if self._file is not None:
            with suppress(OSError):
                write_session(self._file, None)


def write_session(path: str, session: Session | None) -> None:
    """Writes the session, or nothing, into a file of its user alone: all of it, unless the process is killed."""
    room = f'{path}.{os.getpid()}.new'
    with open(
        os.open(room, os.O_WRONLY | os.O_CREAT | os.O_TRUNC | os.O_CLOEXEC, 0o600), 'w', encoding='ascii'
    ) as file:
        os.fchmod(file.fileno(), 0o600)
        file.write('' if session is None else f'{session_text(session)}\n')
    os.replace(room, path)


def session_in(path: str) -> Session | None:
    """The session in a file; None if it is empty, because no session has begun, or the last one has ended in order.
    Raises BadWords, OSError."""
    try:
        text = Path(path).read_text(encoding='ascii').strip()
        return session_of(text) if text else None
    except ValueError as fault:
        raise BadWords(f'--session-file {path}: it has no session: {fault}') from fault


# ---- By the watchdog


def releases_of(options: argparse.Namespace, store: Store, log: Log) -> Callable[[Session], bytes] | None:
    """What the watchdog of a member hears of a session, to release its lease: for a file what it needs itself, and
    otherwise the words of a command."""
    if isinstance(store, FileStore):
        from .sqlite import SqliteLog

        path, name = os.path.realpath(store.path), log.name if isinstance(log, SqliteLog) else ''
        return lambda session: file_release(path, name, options.node, session_text(session))
    python = [sys.executable, '-I', '-S', '-c', COMMAND, str(Path(__file__).resolve().parents[1])]
    words = [*python, 'release', f'--log={options.log}', f'--node={options.node}']
    for word, _, _ in OF_ETCD:
        given = getattr(options, name_of(word))
        words += [f'{word}={given}'] if given else []
    more = {PASSWORD: store.password} if store.password and not options.password_file else {}
    return lambda session: command_release([*words, '--session', session_text(session)], more)
