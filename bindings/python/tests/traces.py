"""Traces that many tests take. What is wanted comes from `docs/FORMATS.md`, `docs/ALGORITHM.md` and the files of
`examples/`."""
from __future__ import annotations

from collections.abc import Iterable, Sequence

import bully
from bully import Setup, State
from places import ROOT

EXAMPLES = sorted((ROOT / 'examples').glob('*.csv'))
TWO = Setup(2, 3)
LARGEST = Setup(bully.NODES_MAX, bully.PARTITIONS_MAX, keeps=True)

ONE = 'bully,1,2,2\n'


def end_of(state: State, task: Sequence[int] | None) -> str:
    """The line of a verdict's node."""
    owners = ','.join(map(str, task or ())) or '-'
    return f'{state.node} {state.status} {state.coordinator or "-"} {state.halter or "-"} {owners}'


def log_of(*steps: str) -> list[str]:
    """Rows of a log. `call,i` stands for those of a call of node i that runs, and `fail,i` for those of one that is
    lost."""
    whole = {'call': ('start', 'run', 'return'), 'fail': ('start', 'lose', 'return')}
    rows: list[str] = []
    for step in steps:
        word, rest = step.split(',', 1)
        rows += [f'{each},{rest}' for each in whole.get(word, (word,))]
    return rows


def text_of(header: str, rows: Iterable[str]) -> bytes:
    return '\n'.join([header, *rows, '']).encode()
