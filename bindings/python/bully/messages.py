"""What a member writes on standard error. A thread of its own writes that, so that no reader holds up the member."""
from __future__ import annotations

import logging
import os
import queue
import select
import threading
from contextlib import suppress

from .display import json_line, shown_name
from .outputs import LAST_SECONDS

WAITING_MAX = 1000  # messages that wait to be written; if there are more, the newest are left out
STANDARD_ERROR = 2


class Lines(logging.Formatter):
    """Each message as a line for people: also if it has a name or a path that others chose."""

    def __init__(self) -> None:
        super().__init__('%(asctime)s bully-member: %(message)s')

    def formatMessage(self, record: logging.LogRecord) -> str:
        return shown_name(super().formatMessage(record))


class JsonLines(logging.Formatter):
    """Each message as a line of JSON: its time, its level and its text."""

    def format(self, record: logging.LogRecord) -> str:
        return json_line(record.created, record.levelname.lower(), super().format(record))  # with its exception, if any


def write(text: bytes) -> None:
    """Writes this on standard error, however long it takes, also if somebody made that non-blocking. Raises OSError."""
    poll = select.poll()
    poll.register(STANDARD_ERROR, select.POLLOUT)
    while text:
        poll.poll()
        with suppress(BlockingIOError):
            text = text[os.write(STANDARD_ERROR, text) :]


class Messages(logging.Handler):
    """Writes messages, and never blocks the code that logs them."""

    def __init__(self, formatter: logging.Formatter) -> None:
        self._lines: queue.Queue[str | None] = queue.Queue(WAITING_MAX)
        self._left_out = 0
        self._writer = threading.Thread(target=self._write_all, name='bully messages', daemon=True)
        self._writer.start()
        super().__init__()  # so a handler whose thread can't be started isn't there
        self.setFormatter(formatter)

    def emit(self, record: logging.LogRecord) -> None:
        try:
            self._tell_left_out()
            self._lines.put_nowait(self.format(record))
        except queue.Full:
            self._left_out += 1

    def _tell_left_out(self) -> None:
        """Says how many messages were left out, if any were. Raises queue.Full."""
        if self._left_out:
            text = f'{self._left_out} messages were left out, because nobody read them'
            self._lines.put_nowait(self.format(logging.makeLogRecord({'levelname': 'WARNING', 'msg': text})))
            self._left_out = 0

    def _write_all(self) -> None:
        for line in iter(self._lines.get, None):
            with suppress(OSError):
                write(f'{line}\n'.encode('utf-8', 'replace'))

    def close(self) -> None:
        """Waits until all are written, if somebody reads."""
        with suppress(queue.Full):
            self._tell_left_out()
            self._lines.put_nowait(None)
        self._writer.join(LAST_SECONDS)
        super().close()


FORMATS = {'text': Lines, 'json': JsonLines}
