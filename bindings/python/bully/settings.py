"""The settings of a group, from its configuration: the TOML document of `bully play`, as docs/FORMATS.md has it."""
from __future__ import annotations

import json
from collections.abc import Iterator
from dataclasses import dataclass
from typing import Any

from .faults import BadConfig
from .group import Setup, setup_of
from .library import Room, loaded


class ConfigFault(Exception):
    """The first fault of a configuration."""


@dataclass(frozen=True)
class Settings:
    """The setup of a group, and the names of its nodes."""

    setup: Setup
    names: tuple[str, ...]

    def number(self, name: str) -> int:
        """The number of the node of this name. Raises KeyError."""
        return {each: number for number, each in enumerate(self.names, 1)}[name]

    def name(self, node: int) -> str:
        return self.names[node - 1]

    def text(self, ttl: float, margin: float) -> str:
        """The settings as JSON, for a worker."""
        return json.dumps({**self.document(), 'ttl': ttl, 'margin': margin}, ensure_ascii=False)

    def document(self) -> dict[str, Any]:
        """The settings for JSON."""
        weights = self.setup.weights or (1,) * self.setup.nodes
        return {'names': self.names, 'weights': weights, 'partitions': self.setup.partitions, 'keep': self.setup.keeps}


def read_settings(text: bytes) -> Settings:
    """The settings of this document. Raises ConfigFault with the first fault, as docs/FORMATS.md names it."""
    try:
        answer = Room().text(loaded().bully_configuration, text, len(text)).encode()
    except BadConfig as fault:
        raise ConfigFault(str(fault)) from None
    header, _, names = answer.partition(b'\n')
    return Settings(setup_of(header.decode()), tuple(names_in(names)))


def names_in(lines: bytes) -> Iterator[str]:
    """The names of these lines. Each follows its length in bytes and a colon."""
    while lines:
        length, _, rest = lines.partition(b':')
        yield rest[: int(length)].decode()
        lines = rest[int(length) + 1 :]
