"""How a case is read, a session with the program. README.md says how one is written."""
import shutil
from pathlib import Path
from typing import Dict, Iterator, List, NamedTuple

from counts import Counts

# The files that a line of a case, by its first sign, adds to.
STREAMS = {'<': 'stdin', '>': 'stdout', '!': 'stderr'}


class Case(NamedTuple):
    """A session with the program, and what is wanted of it."""

    name: str
    command: str
    stdin: str = ''
    stdout: str = ''
    stderr: str = ''
    status: int = 0


def text_of(path: Path) -> str:
    return path.read_bytes().decode(errors='surrogateescape')


class Reader:
    """Reads the cases of a file, which blank lines part."""

    def __init__(self, name: str, counts: Counts) -> None:
        self.file, self.counts = name, counts
        self._begin()

    def _begin(self) -> None:
        self.name, self.command, self.status = self.file, '', 0
        self.tools: List[str] = []
        self.texts: Dict[str, str] = dict.fromkeys(STREAMS.values(), '')

    def _end(self) -> List[Case]:
        case = Case(self.name, self.command, **self.texts, status=self.status)
        if not case.command and case != Case(self.file, ''):
            self.counts.hold(False, f'{self.name}: a case without a command')
        lacking = [tool for tool in self.tools if not shutil.which(tool)]
        if lacking:
            self.counts.skip(case.name, f'there is no {lacking[0]}')
        self._begin()
        return [case] if case.command and not lacking else []

    def read(self, text: str) -> Iterator[Case]:
        for number, line in enumerate([*text.rstrip('\n').split('\n'), ''], 1):
            if line:
                self._take(number, line)
            else:
                yield from self._end()

    def _take(self, number: int, line: str) -> None:
        sign, text = line[0], line[2:]
        if sign == '#':
            self.name = f'{self.file}:{number}, {text}'
        elif sign in STREAMS and line[1:2] in ('', ' '):
            self.texts[STREAMS[sign]] += f'{text}\n'
        elif line.startswith('$ '):
            if self.command:
                self.counts.hold(
                    False,
                    f'{self.file}:{number}: a case has a second command: a blank line must end the case before it',
                )
            self.command = text
        elif line.startswith('? '):
            self.tools = text.split()
        elif line.startswith('= '):
            self.status = int(text)
        else:
            self.counts.hold(False, f'{self.file}:{number}: no line of a case: {line}')
