"""What processes of members do, as a list of acts; what these say of the store; and the premises by which `monitor.py`
judges them.

An act is a line of JSON: `at`, a moment by CLOCK_BOOTTIME; `member`, the process of a member; `kind`; and more:

- `starts`, `steps`, `answered`, `learned`, `shown`, `followed`, `stopped`, `stopped_on`: a call on the rules of a
  member, each with what these are then: `in` which epoch, the `end` of its log, until when the lease is `sure`, and the
  number of the session that is `live`. `instrumented_member.py` writes these, and
- `asks`, `gave`: a call of the log, and what came of it;
- `runs`, `tells`, `heard`, `says`, `gone`: a worker starts, is told a line, has answered a stop; an end is reported to
  the member; the member is gone, and its lease is about to be released. `instrumented_watchdog.py` writes these;
- `unit`: a unit of work that is over, or whose worker was killed in it. `recorder.py` writes it;
- `kept`: an epoch, as the store has it in the end, and whether that is a file. `groups.py` writes it.

Those of a member and of its watchdog also have what the clock of their process `shows`, and moments before and after.
"""
from __future__ import annotations

import json
from bisect import bisect_right
from collections import Counter, defaultdict
from collections.abc import Callable, Iterable, Mapping, Sequence
from dataclasses import dataclass
from typing import Any, NamedTuple

# The premises, by their names in `crates/bully_run/specs/Run.antt` and `crates/bully_clock/specs/Timed.antt`.
PREMISES = {
    'IsEpochOf': 'what a member is told of an epoch is what the store has, and the number of its node there',
    'AreRowsOf': 'the rows that it is told are the next ones of the log of its epoch',
    'IsWhole': 'before a snapshot is reported, the member has learned all rows that the log had at that moment',
    'NumbersLast': 'the sessions of a process have the numbers 1, 2, 3 and so on',
    'WritesAsKnown': 'an append has the rows of the rules, and names the leases that the member was shown',
    'ClosesAsKnown': 'the end of an epoch spares only whom the change does not affect; names have one node each',
    'BeginsWhileSure': 'work starts only while the lease is sure, and as long as it is the store keeps it',
    'NeverBack': 'the clock of a process never goes back',
    'KeepsUp': 'while a clock of the store counts a ttl, that of a process counts at least four fifths of that',
    'EndsNoSooner': 'the store ends no lease that is not released sooner than a ttl after it was granted last',
    'HasNoWork': 'nothing of the work of a process is left when its lease is released because it is gone',
    'IsTrueAnswer': 'an acquire or a renewal is reported as done only if the store has done it since it was requested',
    'ShowsAsked': 'a snapshot shows no session of the process of its member that this has not asked for',
    'WorksInTime': 'work ends no later after its lease was sure than the clock of its process keeps up by',
    'MayStart': 'work starts only after the rules say so, where they say it, by that token',
    'HasEnded': 'work has ended before that is reported',
    'HasEndedOn': 'work on a partition has ended before that is reported',
    'Starts': 'each process has a number of its own',
    'sent_by': 'what is sent to the store is what the rules ask for',
    'IsAnswer': 'what is reported as the answer of a request is that of the store to this request',
    'IsNow': 'the time that is reported is that of a clock that does not go back',
}

Lease = list[Any]  # process and number of its session, epoch and offset of its promise, and what that keeps


class Act(NamedTuple):
    """An act."""

    at: int
    member: str
    kind: str
    more: Mapping[str, Any]


def act_of(line: str | bytes) -> Act:
    """The act of a line."""
    more = json.loads(line)
    return Act(more.pop('at'), more.pop('member'), more.pop('kind'), more)


@dataclass(frozen=True)
class Refusal:
    """An act that isn't one, by this premise."""

    premise: str
    act: Act
    why: str

    def __str__(self) -> str:
        told = json.dumps(self.act.more)
        about = told if len(told) < 400 else f'{told[:400]}..'
        return f'{self.premise} at {self.act.at}: {self.act.member} {self.act.kind} {about}: {self.why}'


@dataclass
class Verdict:
    """How many acts there were of each kind, how often each premise was judged, and what was refused."""

    kinds: Counter[str]
    judged: Counter[str]
    refused: list[Refusal]
    late: list[int]  # how many nanoseconds after its lease was sure a watchdog ended work, in order

    def never(self) -> list[str]:
        """The premises that no act was judged by."""
        return [premise for premise in PREMISES if not self.judged[premise]]

    def __str__(self) -> str:
        kinds = ', '.join(f'{count} {kind}' for kind, count in sorted(self.kinds.items()))
        judged = ', '.join(f'{premise} {self.judged[premise]}' for premise in PREMISES)
        total = sum(self.kinds.values()), sum(self.judged.values())
        told = f'{total[0]} acts ({kinds}), judged {total[1]} times ({judged}): {len(self.refused)} refused'
        if not self.late:
            return told
        median, worst = self.late[len(self.late) // 2] / 1e6, self.late[-1] / 1e6
        return f'{told}; {len(self.late)} times work was late: {median:.1f} ms, at most {worst:.1f}'


# ---- What is known of the store, by all acts


class Append(NamedTuple):
    """An append whose rows are in the log: when it was requested; when its answer came, if that was that it is done;
    and where the log ended then."""

    asked: int
    done: int | None
    end: int


class Lengths:
    """The lengths that the log of an epoch has had, and when."""

    def __init__(self, appends: Iterable[Append]) -> None:
        each = list(appends)
        self.there = {0, *(append.end for append in each)}
        self._asked = self._rising((append.asked, append.end) for append in each)
        self._done = self._rising((append.done, append.end) for append in each if append.done is not None)

    @staticmethod
    def _rising(pairs: Iterable[tuple[int, int]]) -> tuple[list[int], list[int]]:
        moments, most = [0], [0]
        for moment, end in sorted(pairs):
            moments.append(moment)
            most.append(max(most[-1], end))
        return moments, most

    def least(self, moment: int) -> int:
        """No less than this was there at that moment."""
        return self._done[1][bisect_right(self._done[0], moment) - 1]

    def most(self, moment: int) -> int:
        """No more than this was."""
        return self._asked[1][bisect_right(self._asked[0], moment) - 1]


class Store:
    """What the acts say of the store."""

    def __init__(self, acts: Sequence[Act]) -> None:
        self.epochs = {act.more['epoch']: act.more for act in acts if act.kind == 'kept'}
        self.is_file = all(each.get('is_file', True) for each in self.epochs.values())
        self.promised: dict[str, int] = {}  # when a lease with this promise was first requested
        self.rolled: dict[int, int] = {}  # when the end of this epoch was first requested
        appends: dict[int, list[Append]] = defaultdict(list)
        under_way: dict[str, Act] = {}  # the append of a member
        for act in acts:
            if act.kind == 'asks':
                self._see(act)
            if act.kind in ('asks', 'gave') and act.more['call'] == 'append':
                if act.kind == 'asks':
                    under_way[act.member] = act
                elif act.member in under_way:
                    self._see_append(appends, under_way.pop(act.member), act)
        for act in under_way.values():
            self._see_append(appends, act, None)  # its process was killed meanwhile
        self.lengths = {epoch: Lengths(appends[epoch]) for epoch in self.epochs}

    def _see(self, act: Act) -> None:
        more = act.more
        if more['call'] in ('acquire', 'promise'):
            lease = [*more['session'], more['epoch'], more['offset'], list(more.get('works', ()))]
            self.promised.setdefault(json.dumps(lease), act.at)
        elif more['call'] == 'roll_over':
            self.rolled.setdefault(more['epoch'], act.at)

    def _see_append(self, appends: dict[int, list[Append]], asks: Act, gave: Act | None) -> None:
        epoch, offset, rows = (asks.more[word] for word in ('epoch', 'offset', 'rows'))
        end = offset + len(rows)
        if self.rows(epoch, offset, end) == rows:
            done = gave.at if gave is not None and gave.more['result'] is True else None
            appends[epoch].append(Append(asks.at, done, end))

    def rows(self, epoch: int, offset: int, end: int) -> list[str]:
        """The rows of an epoch between these."""
        return list(self.epochs[epoch]['rows'][offset:end]) if epoch in self.epochs else []


# ---- Leases that are sure


class Span(NamedTuple):
    """A session was sure of its lease from one moment to another."""

    since: int
    until: int
    session: tuple[int, int]


class Sureness:
    """Who was sure of the lease of each node, and when; and what was seen of it."""

    def __init__(self) -> None:
        self.spans: dict[str, list[Span]] = defaultdict(list)
        # Answers: when each was requested, and the sessions that hold leases by it.
        self.seen: list[tuple[Act, int, dict[str, tuple[int, int]]]] = []

    def judge(self, hold: Callable[[str, bool, Act, str], None]) -> None:
        """Within the time for which a session was sure nobody may have seen its lease gone, or another session's."""
        spans = {name: sorted(each) for name, each in self.spans.items()}
        begins = {name: [span.since for span in each] for name, each in spans.items()}
        for act, asked, holders in self.seen:
            names = spans.keys() & holders.keys() if act.more['call'] == 'acquire' else spans.keys()
            for name in names:
                index = bisect_right(begins[name], asked) - 1
                if index >= 0 and act.at <= spans[name][index].until:
                    span = spans[name][index]
                    why = f'{name}: {span.session} was sure from {span.since} to {span.until}'
                    hold('BeginsWhileSure', holders.get(name) == span.session, act, why)
