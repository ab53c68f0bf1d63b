"""Standard output and standard error of a command."""
from __future__ import annotations

import codecs
import errno
import io
import os
import sys
import threading

from .display import message_line
from .exit_statuses import NO_THREAD

PROGRAM = 'bully-member'
UNWRITTEN = (errno.ENOSPC, errno.EDQUOT, errno.EFBIG, errno.EIO)  # errors of a write
LAST_SECONDS = 1.0  # the longest wait at the end, until all messages are written


def drop_what_is_closed() -> None:
    """Drops output to a stream that was closed before this process started: Python has no such stream then."""
    sys.stdout = sys.stdout or open(os.devnull, 'w', encoding='utf-8')
    sys.stderr = sys.stderr or open(os.devnull, 'w', encoding='utf-8')


def is_utf8() -> bool:
    """Whether standard output can hold each sign."""
    return codecs.lookup(sys.stdout.encoding or 'utf-8').name == 'utf-8'


def escape_what_has_no_room() -> None:
    """What the encoding of standard output can't hold is written as an escape, as `\\u2713`."""
    if isinstance(sys.stdout, io.TextIOWrapper):
        sys.stdout.reconfigure(errors='backslashreplace')


def drop_output() -> None:
    """Drops output that standard output doesn't take, so that its flush at the end raises no further error."""
    try:
        sys.stdout.flush()
    except OSError:
        os.dup2(os.open(os.devnull, os.O_WRONLY), sys.stdout.fileno())


def text_of(fault: Exception) -> str:
    """The text of an exception. For an error of a file it starts with the file's name, or with `standard output`, which
    has no name. (A store raises errors of its own.)"""
    if str(fault) == NO_THREAD or isinstance(fault, BlockingIOError):  # the second one as of a fork
        what = 'thread' if str(fault) == NO_THREAD else 'process'
        return f'no {what} can be started now: a limit on threads, processes or memory is reached'
    if isinstance(fault, OSError) and (fault.filename is not None or fault.errno in UNWRITTEN):
        return f'{fault.filename or "standard output"}: {fault.strerror}'
    return str(fault)


def say_error(text: str) -> None:
    """Writes this on standard error."""
    print(message_line(PROGRAM, text), file=sys.stderr)


def say_last(text: str, status: int) -> None:
    """Writes this on standard error. If nobody reads there, the process ends at once with this status."""
    saying = threading.Thread(target=say_error, args=[text], daemon=True)
    try:
        saying.start()
    except RuntimeError:  # there is no room for a thread
        from .watchdog import say

        say(text, PROGRAM)
        return
    saying.join(LAST_SECONDS)
    if saying.is_alive():
        os._exit(status)
