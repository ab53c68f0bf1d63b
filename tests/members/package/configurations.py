"""Configurations, as their documents."""
from __future__ import annotations

import json
from typing import Any

TOP: dict[str, Any] = {'nodes': 3, 'partitions': 6, 'events': 10, 'turns': 5, 'names': ['a', 'b', 'c']}


def toml(told: dict[str, Any]) -> bytes:
    """The document of this table, whose values are spelled as in JSON."""
    lines = [f'{key} = {json.dumps(value)}' for key, value in told.items() if key != 'fault']
    for fault in told.get('fault', []):
        lines += ['[[fault]]', *(f'{key} = {json.dumps(value)}' for key, value in fault.items())]
    return '\n'.join(lines).encode()
