"""Settings from a configuration file, and back.

`docs/FORMATS.md` has the format. A group of members needs neither `events` nor `turns`. A fault names the file, and the
line if there is one.
"""
from __future__ import annotations

import bisect
import codecs
import re
from collections.abc import Iterable, Iterator, Sequence
from typing import NamedTuple

from .settings import ConfigFault, Settings, read_settings
from .shared_log import LogError

SUPPLIED = {'events': 1_000_000, 'turns': 1_000_000}  # the maximum of each: a group of members uses neither
TOP_KEYS = frozenset('nodes partitions events turns period names weights keep fault'.split())
FAULT_KEYS = frozenset('at node kind'.split())
KEY = re.compile(rb'\s*(?:"([^"\\]*)"|\'([^\']*)\'|([\w-]+))\s*=')  # at the start of a line
TABLE = re.compile(rb'\s*\[\[?\s*[^\]]+\]')
# What may be open at the end of a line, or not: texts, comments, and brackets.
TOKEN = re.compile(
    rb'"""(?:\\.|[^\\])*?"{3,5}|\'{3}.*?\'{3,5}|"(?:\\.|[^"\\\n])*"|\'[^\'\n]*\'|#[^\n]*|[][{}\n]', re.DOTALL
)


def settings_in(path: str) -> Settings:
    """The settings in this file. Raises LogError if it can't be read; ConfigFault."""
    try:
        with open(path, 'rb') as file:
            text = file.read()
    except OSError as error:
        raise LogError(f'{path}: {error.strerror}') from error
    try:
        settings = read_supplied(text)
    except ConfigFault as fault:
        raise ConfigFault(f'{path}{with_line(text, str(fault))}') from fault
    if any('\0' in name for name in settings.names):
        raise ConfigFault(f'{path}: a name has a zero character, which no environment variable can hold')
    return settings


def read_supplied(text: bytes) -> Settings:
    """The settings of this document, which may lack what members don't use. Raises ConfigFault."""
    left, mark = dict(SUPPLIED), text[: len(codecs.BOM_UTF8) if text.startswith(codecs.BOM_UTF8) else 0]
    while True:
        try:
            return read_settings(text)
        except ConfigFault as fault:
            kind, _, key = str(fault).partition(' ')
            if kind != 'Missing' or key not in left:
                raise
            text = mark + f'{key} = {left.pop(key)}\n'.encode() + text[len(mark) :]


def toml_of(settings: Settings) -> str:
    """The document that has these settings."""
    setup = settings.setup
    weights = f'weights = [{", ".join(map(str, setup.weights))}]\n' if setup.weights else ''
    keep = 'keep = true\n' if setup.keeps else ''
    names = ', '.join(map(spelled, settings.names))
    return f'nodes = {setup.nodes}\npartitions = {setup.partitions}\nnames = [{names}]\n{weights}{keep}'


def spelled(name: str) -> str:
    """A name as a string of TOML. What can't be printed is escaped."""
    quoted = name.replace('\\', '\\\\').replace('"', '\\"')
    return f'"{"".join(each if each.isprintable() else f"{chr(92)}U{ord(each):08X}" for each in quoted)}"'


def fault_of(lines: Sequence[bytes]) -> str:
    """The first fault of these lines; empty if they have none."""
    try:
        read_supplied(b'\n'.join(lines))
    except ConfigFault as fault:
        return str(fault)
    return ''


# ---- The line of a fault


def with_line(text: bytes, fault: str) -> str:
    """A fault with the number of its line, as it follows the name of the file. A missing key has no line, nor has a
    fault whose line isn't clear."""
    lines, starts = text.split(b'\n'), starts_of(text)
    kind, _, key = fault.partition(' ')
    if kind == 'Missing':
        return f': {fault}{mistyped(keys_of(lines, starts), key)}'
    if kind == 'Toml':
        return f':{starts[first_with(fault, lines, starts) - 1] + 1}: {fault}'
    found = [each for each in keys_of(lines, starts) if each.may_be('names' if kind == 'DoubleName' else key)]
    at = first_with(fault, lines, [each.end for each in found])
    if at == len(found) or [each.end for each in found].count(found[at].end) > 1:
        return f': {fault}'
    return f':{found[at].number}: {fault}' + ('' if key or kind == 'DoubleName' else f' {found[at].name}')


def starts_of(text: bytes) -> list[int]:
    """The lines that start outside of all values, as far as the text is TOML: of each how many lines come before it."""
    found, depth, lines = [0], 0, 0
    for token in TOKEN.findall(text):
        depth += (token in b'[{') - (token in b']}')
        lines += token.count(b'\n')
        if token == b'\n' and depth == 0:
            found.append(lines)
    return found


def first_with(fault: str, lines: Sequence[bytes], counts: Sequence[int]) -> int:
    """The index of the first of these rising numbers of lines that have this fault; how many numbers there are, if none
    has. More lines have it, too."""
    low, high = 0, len(counts)
    while low < high:
        middle = (low + high) // 2
        if fault_of(lines[: counts[middle]]) == fault:
            high = middle
        else:
            low = middle + 1
    return low


def mistyped(keys: Iterable[Key], missing: str) -> str:
    """Which line may have the missing key under another name: an unknown key that is spelled much like it."""
    import difflib

    found = {key.name: key.number for key in keys if not key.is_known}
    near = difflib.get_close_matches(missing, found, 1)
    return f' (line {found[near[0]]} has {near[0]}, which is no key)' if near else ''


class Key(NamedTuple):
    """A key that starts a line: its name, the number of the line from 1, whether it is known there, and the number of
    lines up to the end of its table."""

    name: str
    number: int
    is_known: bool
    end: int

    def may_be(self, name: str) -> bool:
        """Whether it is the one of a fault that has this name, or of one that has no name, of an unknown key."""
        return self.name == name if name else not self.is_known


def keys_of(lines: Sequence[bytes], starts: Sequence[int]) -> Iterator[Key]:
    """The keys that start lines, of these lines that start outside of all values."""
    tables = [start for start in starts if start < len(lines) and TABLE.match(lines[start])]
    for start in starts:
        match = KEY.match(lines[start]) if start < len(lines) else None
        if match:
            name = next(each for each in match.groups() if each is not None).decode('utf-8', 'replace')
            at = bisect.bisect_right(tables, start)
            known = FAULT_KEYS if at else TOP_KEYS
            yield Key(name, start + 1, name in known, (*tables, len(lines))[at])
