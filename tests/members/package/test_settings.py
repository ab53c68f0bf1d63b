"""Tests of settings and their configurations, by docs/FORMATS.md."""
from __future__ import annotations

import unittest
from typing import Any

from bully import settings
from places import ROOT
from .configurations import TOP, toml

FAULT: dict[str, Any] = {'at': 1, 'node': 'b', 'kind': 'crash'}


def without(table: dict[str, Any], key: str) -> dict[str, Any]:
    return {name: value for name, value in table.items() if name != key}


# What docs/FORMATS.md says of these configurations.
FAULTY = [
    *[(without(TOP, key), f'Missing {key}') for key in TOP],
    *[({**TOP, 'fault': [without(FAULT, key)]}, f'Missing {key}') for key in FAULT],
    *[({**TOP, key: 'x'}, f'Kind {key}') for key in (*TOP, 'period', 'weights', 'keep')],
    ({**TOP, 'nodes': True}, 'Kind nodes'), ({**TOP, 'names': ['a', 'b', 3]}, 'Kind names'),
    ({**TOP, 'weights': [1, 2, '3']}, 'Kind weights'), ({**TOP, 'fault': [{**FAULT, 'at': 'x'}]}, 'Kind at'),
    ({**TOP, 'fault': [{**FAULT, 'node': 2}]}, 'Kind node'), ({**TOP, 'nodes': 0}, 'Range nodes'),
    ({**TOP, 'nodes': 1025}, 'Range nodes'), ({**TOP, 'partitions': 4097}, 'Range partitions'),
    ({**TOP, 'events': 0}, 'Range events'), ({**TOP, 'turns': 1_000_001}, 'Range turns'),
    ({**TOP, 'period': 1}, 'Range period'), ({**TOP, 'names': ['a', 'b']}, 'Range names'),
    ({**TOP, 'names': ['a', 'b', '']}, 'Range names'), ({**TOP, 'weights': [1, 1]}, 'Range weights'),
    ({**TOP, 'weights': [1, 1, 1001]}, 'Range weights'), ({**TOP, 'fault': [{**FAULT, 'at': 6}]}, 'Range at'),
    ({**TOP, 'fault': [{**FAULT, 'node': 'd'}]}, 'Range node'),
    ({**TOP, 'fault': [{**FAULT, 'kind': 'halt'}]}, 'Range kind'), ({**TOP, 'names': ['a', 'b', 'a']}, 'DoubleName'),
    ({**TOP, 'at': 1}, 'UnknownKey'), ({**TOP, 'fault': [{**FAULT, 'keep': True}]}, 'UnknownKey'),
    ({**without(TOP, 'turns'), 'nodes': 'x', 'more': 1}, 'Missing turns'),
    ({**TOP, 'nodes': 'x', 'more': 1}, 'Kind nodes'),
]  # fmt: skip


class Configurations(unittest.TestCase):
    """What a configuration has, and its faults."""

    def test_examples(self) -> None:
        places = (ROOT / 'examples').rglob('*.toml')
        for path in sorted(path for path in places if path.name != 'Cargo.toml'):
            with self.subTest(path=path.name):
                read = settings.read_settings(path.read_bytes())
                self.assertEqual(len(read.names), read.setup.nodes)
                self.assertEqual([read.number(name) for name in read.names], list(range(1, read.setup.nodes + 1)))

    def test_values(self) -> None:
        """What it has besides the names is in the header of a log, and names may have any characters."""
        names = ('a:b', '\n1:c', '\u00e9\0', '"')
        cases: list[tuple[dict[str, Any], str]] = [
            ({}, 'bully,1,4,6'), ({'weights': [1, 1, 1, 1]}, 'bully,1,4,6'),
            ({'weights': [1, 2, 3, 1000]}, 'bully,2,4,6,1 2 3 1000,clear'),
            ({'keep': True}, 'bully,2,4,6,1 1 1 1,keep'),
        ]  # fmt: skip
        for more, header in cases:
            with self.subTest(header=header):
                read = settings.read_settings(toml({**TOP, 'nodes': 4, 'names': list(names), **more}))
                self.assertEqual((read.names, read.setup.header()), (names, header))

    def test_faults(self) -> None:
        for told, fault in FAULTY:
            with self.subTest(fault=fault, told=told), self.assertRaises(settings.ConfigFault) as caught:
                settings.read_settings(toml(told))
            self.assertEqual(str(caught.exception), fault)

    def test_other_faults(self) -> None:
        whole = toml(TOP)
        for text, fault in (
            (b'\xff', 'Toml'), (b'nodes = ', 'Toml'), (whole + b'\nfault = 1', 'Kind fault'),
            (whole + b'\n[fault]\nat = 1', 'Kind fault'), (whole + b'\nfault = [1]', 'Kind fault'),
            (whole + b'\nmore = 9223372036854775808', 'Toml'),
        ):  # fmt: skip
            with self.subTest(text=text), self.assertRaises(settings.ConfigFault) as caught:
                settings.read_settings(text)
            self.assertEqual(str(caught.exception), fault)
