#!/usr/bin/env python3
"""Reads the stories of `bindings/stories`, whose README has the format: the bindings are tried by them.

    tests/stories.py    prints those of all languages, for the tests of Rust

Each line is a call: its story, place, handle, name, status, arguments and answers, with tabs between them. A value is
a number, a word, a quote and a text in hexadecimal, `[ VALUE.. ]`, or `{ NAME VALUE .. }`, which begins with `{..` if
other fields aren't compared. Between these are spaces."""
from __future__ import annotations

import re
import sys
from collections.abc import Iterator
from pathlib import Path
from typing import NamedTuple, Union

ROOT = Path(__file__).resolve().parents[1]
FOLDER, EXAMPLES = ROOT / 'bindings' / 'stories', ROOT / 'examples'
TOKEN = re.compile(r'\s*("(?:[^"\\]|\\.)*"|[A-Za-z_][\w-]*|-?\d+|->|\.\.|[\[\]{}=+])')
ESCAPES = {'n': b'\n', 'r': b'\r', '"': b'"', '\\': b'\\'}


class Word(str):
    """A name of the header without its prefix, as `ANY_IDLE`."""


class Fields(NamedTuple):
    """A struct: the fields that are named; and whether all others are 0, or aren't compared."""

    named: dict[str, Value]
    is_whole: bool


Value = Union[int, Word, bytes, list['Value'], Fields]


class Call(NamedTuple):
    """A line: its place; the handle, if it has one; the function's name without its prefix; what it is given; and its
    status and what it writes."""

    file: str
    line: int
    handle: str
    name: str
    arguments: list[Value]
    status: str
    answers: list[Value]

    @property
    def place(self) -> str:
        return f'{self.file}:{self.line}'

    @property
    def kind(self) -> str:
        """That of its handle: `agent`, `member`, `replica` or none."""
        return self.handle.rstrip('0123456789')


class Story(NamedTuple):
    """What one test does. A story of C alone has what the types of other languages rule out."""

    name: str
    is_for_c: bool
    calls: list[Call]


class Reader:
    """Reads the files, each with its own names and parts."""

    def __init__(self, statuses: set[str]) -> None:
        self.statuses = statuses

    def stories(self) -> Iterator[Story]:
        for path in sorted(FOLDER.glob('*.txt')):
            yield from self.read(path)
        for path in sorted(EXAMPLES.glob('*.csv')):
            yield Story(path.stem, False, [*example(path)])

    def read(self, path: Path) -> list[Story]:
        self.values: dict[str, Value] = {}
        parts: dict[str, list[Call]] = {}
        stories: list[Story] = []
        calls: list[Call] = []
        for number, line in enumerate(path.read_text().splitlines(), 1):
            first, _, rest = line.partition(' ')
            if not line or first.startswith('#'):
                continue
            if first == 'let':
                name, _, told = rest.partition(' ')
                [self.values[name]] = self.all_values(told)
            elif first == 'part':
                calls = parts[rest] = []
            elif first in ('story', 'c-story'):
                calls = []
                stories.append(Story(rest, first == 'c-story', calls))
            elif first == 'use':
                calls += parts[rest]
            else:
                calls += self.expanded(self.call(path.name, number, line))
        return stories

    def expanded(self, call: Call) -> list[Call]:
        """What nodes append, each row as two calls: the row, which is given, is learned."""
        if call.name != 'appends':
            return [call]
        calls: list[Call] = []
        given: list[Value] = []
        for value in call.arguments:
            if not isinstance(value, bytes):
                given.append(value)
                continue
            calls.append(call._replace(name='next' if len(given) == 1 else 'event', arguments=given, answers=[value]))
            calls.append(call._replace(name='learn', arguments=[value], answers=[1]))
            given = []
        return calls

    def call(self, file: str, number: int, line: str) -> Call:
        told, arrow, answered = line.partition(' -> ')
        first, _, rest = told.partition(' ')
        handle, name = (
            ('', first) if not re.match('(agent|replica|member)[0-9]*$', first) else (first, rest.partition(' ')[0])
        )
        answers = self.all_values(answered)
        status = 'OK'
        if answers and isinstance(answers[0], Word) and answers[0] in self.statuses:
            status = answers.pop(0)  # type: ignore[assignment]
        return Call(file, number, handle, name, self.all_values(rest[len(name) :] if handle else rest), status, answers)

    def all_values(self, text: str) -> list[Value]:
        self.tokens = [found.group(1) for found in TOKEN.finditer(text)]
        self.tokens.reverse()
        values: list[Value] = []
        while self.tokens:
            values.append(self.value())
        return values

    def value(self) -> Value:
        token = self.tokens.pop()
        if token == '[':
            return self.list()
        if token == '{':
            return self.fields()
        value = self.single(token)
        while self.tokens and self.tokens[-1] == '+':
            self.tokens.pop()
            value += self.single(self.tokens.pop())  # type: ignore[operator, assignment]
        return value

    def single(self, token: str) -> Value:
        if token[0] == '"':
            return bytes_of(token[1:-1])
        return int(token) if token.lstrip('-').isdigit() else self.values.get(token, Word(token))

    def list(self) -> Value:
        values: list[Value] = []
        while self.tokens[-1] != ']':
            values.append(self.value())
        self.tokens.pop()
        return values

    def fields(self) -> Fields:
        named: dict[str, Value] = {}
        while self.tokens[-1] not in ('}', '..'):
            name, _ = self.tokens.pop(), self.tokens.pop()
            named[name] = self.value()
        is_whole = self.tokens.pop() == '}'
        if not is_whole:
            self.tokens.pop()
        return Fields(named, is_whole)


def name_of(told: str) -> Word:
    """A cause or a status of a node as verdicts have it, by the header: `NO_STEP`."""
    return Word(re.sub('(?<=[a-z])(?=[A-Z])', '_', told).upper())


def example(path: Path) -> Iterator[Call]:
    """What a trace of `examples/` says, and the verdict beside it: one replica learns its rows one by one, and another
    one at once."""
    header, *rows = path.read_bytes().splitlines(keepends=True)
    verdict, *nodes = path.with_suffix('.out').read_text().splitlines()
    kind, told, *cause = verdict.split()
    is_lawful, number = kind == 'lawful', int(told)
    status, taken = (name_of(cause[0]), number - 2) if cause else ('OK', len(rows))

    def call(
        handle: str, name: str, arguments: list[Value], answers: list[Value], status: str = 'OK', line: int = 1
    ) -> Call:
        return Call(path.name, line, handle, name, arguments, status, answers)

    judged: dict[str, Value] = {'kind': name_of(kind), 'number': number, 'cause': Word('OK' if is_lawful else status)}
    yield call('', 'check', [path.read_bytes()], [Fields(judged, True)])
    yield call('replica', 'open', [header], [])
    yield call('replica2', 'open', [header], [])
    yield from (call('replica', 'learn', [row], [1], line=line) for line, row in enumerate(rows[:taken], 2))
    if not is_lawful:
        yield call('replica', 'learn', [rows[taken]], [0], status)
    yield call('replica2', 'learn', [b''.join(rows)], [taken], status)
    for replica in ('replica', 'replica2'):
        yield call(replica, 'group', [], [Fields({'rows': taken, **({'events': number} if is_lawful else {})}, False)])
        for node, shown, *others, owners in (line.split() for line in nodes):
            coordinator, halter = (0 if each == '-' else int(each) for each in others)
            state: dict[str, Value] = {
                'node': int(node),
                'status': name_of(shown),
                'coordinator': coordinator,
                'halter': halter,
            }
            yield call(replica, 'show', [int(node)], [Fields(state, False)])
            yield call(replica, 'task', [int(node)], [[] if owners == '-' else list(map(int, owners.split(',')))])


def bytes_of(text: str) -> bytes:
    """A text in quotes: \\n, \\r, \\", \\\\, and \\xHH for any other byte."""
    parts = re.findall(r'\\x(..)|\\(.)|([^\\]+)', text)
    return b''.join(
        bytes.fromhex(code) if code else ESCAPES[escape] if escape else plain.encode() for code, escape, plain in parts
    )


def printed(value: Value) -> str:
    """A value as it is printed."""
    if isinstance(value, bytes):
        return f'"{value.hex()}'
    if isinstance(value, list):
        return ' '.join(['[', *map(printed, value), ']'])
    if isinstance(value, Fields):
        named = [f'{name} {printed(each)}' for name, each in value.named.items()]
        return ' '.join(['{' if value.is_whole else '{..', *named, '}'])
    return str(value)


def main() -> None:
    sys.path.append(str(ROOT / 'bin'))
    from building.layer import HEADER, read_header

    for story in Reader(set(read_header(HEADER.read_text()).statuses)).stories():
        for call in [] if story.is_for_c else story.calls:
            values = (' '.join(map(printed, each)) for each in (call.arguments, call.answers))
            print(story.name, call.place, call.handle, call.name, call.status, *values, sep='\t')


if __name__ == '__main__':
    main()
