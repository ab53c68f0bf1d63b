"""How names and addresses from outside, and times, are shown to people, and messages as lines. A watchdog uses this
module, so it loads what takes much memory only when that is used."""
from __future__ import annotations

import os
import time

LOG_FORMAT = 'BULLY_LOG_FORMAT'  # of the environment: the format of messages on standard error, `text` or `json`


def shown_name(name: str | None) -> str:
    """A name for a terminal: characters that can't be printed, and marks of direction, are shown as `?`."""
    return ''.join(each if each.isprintable() else '?' for each in name or '-')


def shown_address(address: str) -> str:
    """An address for people, without a user and a password: an address may have neither."""
    import re

    return shown_name(re.sub(r'^(\w+://)?.*@', r'\1..@', address, flags=re.DOTALL))


def writes_json() -> bool:
    """Whether messages are lines of JSON."""
    return os.environ.get(LOG_FORMAT) == 'json'


def message_line(program: str, text: str) -> str:
    """An error that this program reports, as a line without its end."""
    return json_line(time.time(), 'error', text) if writes_json() else f'{program}: {text}'


def json_line(seconds: float, level: str, text: str) -> str:
    """A message as a line of JSON: its time, its level and its text."""
    import json

    return json.dumps({'time': round(seconds, 3), 'level': level, 'message': text}, ensure_ascii=False)


def time_text(milliseconds: int | None) -> str:
    """A time of UTC by ISO 8601; empty if there is none."""
    if milliseconds is None:
        return ''
    return time.strftime('%Y-%m-%dT%H:%M:%S', time.gmtime(milliseconds // 1000)) + f'.{milliseconds % 1000:03}Z'
