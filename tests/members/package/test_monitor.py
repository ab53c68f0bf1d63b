"""Tests of the monitor, by acts that are written here: each premise of `crates/bully_run/specs/Run.antt` and
`crates/bully_clock/specs/Timed.antt` is broken by some of them, which break no other one."""
from __future__ import annotations

import json
import unittest
from collections.abc import Iterable, Sequence
from typing import Any

from ..premises import PREMISES, Act, act_of
from ..monitor import judge

ROWS = ['recover,1', 'recover,2']
TOKEN = 10_000_002
TTL = 100
OPENINGS = {
    1: {'epoch': 1, 'header': 'H', 'is_cooperative': True, 'names': ['a', 'b']},
    2: {'epoch': 2, 'header': 'H', 'is_cooperative': True, 'names': ['b', 'a']},
}
Acts = list[Act]
Told = dict[str, Any]
Edits = dict[int, Told]  # something else in the acts of these moments


def act(at: int, kind: str, member: str = 'm', **more: Any) -> Act:
    """An act, as it is read from a line. All clocks show the same, at first."""
    return act_of(json.dumps({'at': at, 'member': member, 'kind': kind, 'shows': [at, at, at], **more}))


def state(epoch: int = 1, end: int = 0, live: int | None = 1) -> Told:
    """What the rules of a member are after a call."""
    return {'in': epoch, 'end': end, 'live': live, 'sure': 1000 if live else 0}


def asked(
    at: int, request: str, told: Told, result: object, now: Told, member: str = 'm', **more: Any
) -> Acts:  # fmt: skip
    """A request of the rules, with its call of the log, which is given that result a moment later."""
    about = {'session': told.get('session', [0, 0]), 'offset': told.get('offset', 0), 'works': told.get('works', [])}
    step = act(at, 'steps', member, now=at - 1, step='Ask', request=request, **{**about, **more}, **now)
    asks = act(at + 1, 'asks', member, call=request, **told)
    return [step, asks, act(at + 2, 'gave', member, call=request, result=result)]


def answered(at: int, now: Told, answer: str = 'done') -> Act:
    return act(at, 'answered', now=at, answer=answer, **now)


def snapshot(
    at: int, rows: Sequence[str], holders: Told, before: Told, now: Told, member: str = 'm', takes: int = 2
) -> Acts:  # fmt: skip
    """A snapshot that is read and reported, and takes so long."""
    found = {'epoch': 1, 'is_paused': False, 'rows': rows, 'holders': holders, 'revision': at}
    step, asks, gave = asked(at, 'snapshot', {'epoch': 1, 'offset': before['end']}, found, before, member)
    leases = {str('ab'.index(name) + 1): lease for name, lease in holders.items()}
    offset, done = before['end'], at + takes
    return [
        step, asks, gave._replace(at=done),
        act(done + 1, 'learned', member, epoch=1, offset=offset, rows=rows, **{**before, 'end': now['end']}),
        act(done + 2, 'shown', member, now=done + 1, epoch=1, leases=leases, **now),
    ]  # fmt: skip


def started(at: int, member: str, process: int, name: str, node: int) -> Act:
    opening = {'epoch': 1, 'header': 'H', 'is_cooperative': True, 'node': node}
    return act(at, 'starts', member, process=process, name=name, ttl=TTL, **opening, **state(live=None))


# A member comes for a, appends a rebalance, works, keeps its work by a promise, and stops; then it ends the epoch, and
# is gone. One for b reads a snapshot once the lease of a is over.
SESSION = [7, 1]
OWN = [*SESSION, 1, 0, []]
KNOWN = {'affected': ['a'], 'holders': {'a': OWN}, 'revision': 40}
APPEND = {'epoch': 1, 'offset': 0, 'rows': ROWS, 'known': KNOWN}
PROMISE = {'name': 'a', 'session': SESSION, 'epoch': 1, 'offset': 2, 'works': [0, 1]}
CLOSE = {'epoch': 1, 'offset': 2, 'names': ['b', 'a'], 'known': {'affected': [], 'holders': {}, 'revision': 60}}
LEARNED, COMES, NEXT = state(end=2), state(live=None), {'epoch': 2, 'header': 'H', 'is_cooperative': True, 'node': 2}
LAWFUL: Acts = [
    *(act(0, 'kept', '', **opening, rows=ROWS if epoch == 1 else []) for epoch, opening in OPENINGS.items()),
    started(10, 'm', 7, 'a', 1),
    *snapshot(20, [], {}, state(live=None), state(live=None)),
    *asked(30, 'acquire', {'name': 'a', 'session': SESSION, 'epoch': 1, 'offset': 0}, True, state(live=None)),
    answered(33, state()),
    *snapshot(40, [], {'a': OWN}, state(), state()),
    *asked(50, 'append', APPEND, True, state(), rows=ROWS, affected=[1], is_ending=False),
    answered(53, state()),
    *snapshot(60, ROWS, {'a': OWN}, state(), LEARNED),
    act(70, 'steps', now=69, step='Begin', token=TOKEN, owned=[0, 1], **LEARNED),
    act(80, 'runs', process=501, until=1000, token=TOKEN, partitions=[0, 1]),
    act(90, 'unit', partition=0, token=TOKEN, begun=85),
    *asked(100, 'promise', PROMISE, True, LEARNED),
    answered(103, LEARNED),
    act(110, 'says', word='stopped', process=501, there=[]),
    act(111, 'stopped_on', partition=1, there=[], **LEARNED),
    act(112, 'stopped', there=[], **LEARNED),
    *asked(120, 'roll_over', CLOSE, True, LEARNED, affected=[], is_ending=False),
    answered(123, LEARNED),
    *asked(130, 'opening', {}, OPENINGS[2], LEARNED),
    act(133, 'followed', now=133, opening=NEXT, **state(epoch=2)),
    started(13, 'k', 10, 'b', 2), *snapshot(140, ROWS, {}, COMES, state(end=2, live=None), 'k'),
    act(150, 'gone', there=[]),
]  # fmt: skip

# One for b whose snapshot takes long, and one that comes for a while that isn't free.
SLOW: Acts = [started(11, 'n', 8, 'b', 2), *snapshot(48, [], {'a': OWN}, COMES, COMES, 'n', takes=60)]
OTHER: Acts = [
    started(12, 'o', 9, 'a', 1),
    *asked(54, 'acquire', {'name': 'a', 'session': [9, 1], 'epoch': 1, 'offset': 0}, True, COMES, 'o'),
]  # fmt: skip

# A worker that talks works on another partition, too, and then only on this one.
TALK: Acts = [
    act(71, 'runs', process=601, until=1000, token=0, partitions=[]),
    act(72, 'tells', process=601, until=1000, begin=TOKEN, partitions=[0, 1]),
    act(104, 'tells', process=601, until=1000, stop=[1]),
    act(105, 'heard', process=601),
    act(106, 'stopped_on', partition=1, there=[601], **LEARNED),
    act(107, 'unit', partition=0, token=TOKEN, begun=106),
    act(108, 'tells', process=601, until=1000, stop=True),
    act(109, 'heard', process=601),
]  # fmt: skip


def without(*moments: int) -> Acts:
    """The lawful acts without those of these moments."""
    return [each for each in LAWFUL if each.at not in moments]


def other(changes: Edits, acts: Acts = LAWFUL) -> Acts:
    """These acts, but at these moments with something else."""
    return [each._replace(more={**each.more, **changes.get(each.at, Told())}) for each in acts]


def slowed(since: int, by: int) -> Acts:
    """The lawful acts, of which those of the first member from that moment on have a clock that is so far back."""
    late = [each for each in LAWFUL if each.member == 'm' and each.at >= since]
    changes = {each.at: {'shows': [each.at, each.at - by, each.at]} for each in late}
    for each in late:
        changes[each.at] |= {'now': each.more['now'] - by} if 'now' in each.more else {}
    return other(changes)


def given(at: int, **more: Any) -> Told:
    """Something else in the result of the lawful call that ended then."""
    result = next(each.more['result'] for each in LAWFUL if each.at == at)
    return {'result': {**result, **more}}


def at_another(at: int, to: int) -> Acts:
    """The lawful acts, of which one is done at another moment."""
    return [each._replace(at=to) if each.at == at else each for each in LAWFUL]


TWICE, NEWER = [ROWS[1], ROWS[1]], [*SESSION, 1, 2, [0, 1]]
RENEW: Told = {'call': 'renew', 'name': 'a', 'session': SESSION}
RENEWED: dict[bool, Acts] = {  # a renewal that the store does, or refuses
    is_done: [
        *asked(125, 'renew', {'name': 'a', 'session': SESSION}, is_done, LEARNED, session=SESSION),
        answered(128, LEARNED),
    ]
    for is_done in (True, False)
}
BROKEN: dict[str, dict[str, Acts]] = {
    'IsEpochOf': {
        'another number': other({10: {'node': 2}}), 'another header': other({10: {'header': 'X'}}),
        'the number in the epoch before': other({133: {'opening': {**NEXT, 'node': 1}}}),
        'an epoch that has not begun': without(*range(120, 124)),
    },
    'AreRowsOf': {'one is left out, and one is there twice': other({62: given(62, rows=TWICE), 63: {'rows': TWICE}})},
    'IsWhole': {
        'no row is learned': other({62: given(62, rows=[]), 63: {'rows': []}, 64: {'end': 0}}),
        'an append is learned in part': other({64: {'end': 1}}),
        'a promise is shown that is newer': [
            *LAWFUL, *other({108: given(42, holders={'a': NEWER}), 110: {'leases': {'1': NEWER}}}, SLOW)
        ],
    },
    'NumbersLast': {'a number is left out': other({30: {'session': [7, 2]}, 31: {'session': [7, 2]}})},
    'WritesAsKnown': {
        'nothing is named': other({51: {'known': None}}),
        'who is affected is left out': other({51: {'known': {**KNOWN, 'affected': []}}}),
        'a lease as it was not shown': other({51: {'known': {**KNOWN, 'holders': {'a': [7, 1, 1, 2, []]}}}}),
        'the revision of a newer snapshot': other({51: {'known': {**KNOWN, 'revision': 41}}}),
        'other rows than those of the rules': other({50: {'rows': ROWS[:1]}}),
    },
    'ClosesAsKnown': {
        'nothing is named': other({121: {'known': None}}), 'two of one name': other({121: {'names': ['b', 'b']}}),
        'who is affected is spared': other({120: {'affected': [1]}}),
    },
    'BeginsWhileSure': {
        'a worker starts late': other({80: {'until': 80}}),
        'the lease is not sure': other({70: {'sure': 69}}), 'another session acquires it': [*LAWFUL, *OTHER],
        'the lease is gone': other({62: given(62, holders={}), 64: {'leases': {}}}),
    },
    'NeverBack': {'it goes back': other({61: {'shows': [61, 50, 61]}})},
    'KeepsUp': {'it stands still for a while': slowed(100, 29)},
    'EndsNoSooner': {
        'after less than the ttl': other({10: {'ttl': 120}}), 'a renewal is forgotten': [*LAWFUL, *RENEWED[True]],
    },
    'HasNoWork': {'a process is left': other({150: {'there': [501]}})},
    'IsTrueAnswer': {
        'an acquire that was refused is done': other({32: {'result': False}}),
        'a renewal that was refused is done': [*LAWFUL, *RENEWED[False]],
    },
    'ShowsAsked': {
        'a session that was not asked for': other({22: given(22, holders={'a': OWN}), 24: {'leases': {'1': OWN}}})
    },
    'WorksInTime': {
        'a later moment': other({80: {'until': 5000}}),
        'a watchdog is late': [*LAWFUL, act(1021, 'says', word='lost', process=501, there=[])],
    },
    'MayStart': {
        'on one partition more': other({80: {'partitions': [0, 1, 2]}}),
        'by another token': other({80: {'token': TOKEN + 1}}),
        'before the rules say so': at_another(80, 65), 'a unit elsewhere': other({90: {'partition': 5}}),
    },
    'HasEnded': {
        'what a worker has started is left': other({110: {'there': [502]}}),
        'the worker is there': other({112: {'there': [501]}}, without(110)),
        'a unit after that': [*LAWFUL, act(115, 'unit', partition=0, token=TOKEN, begun=114)],
    },
    'HasEndedOn': {
        'the worker is there': other({111: {'there': [501]}}, without(110)),
        'a unit goes on': [*LAWFUL, act(116, 'unit', partition=1, token=TOKEN, begun=105)],
        'a stop that is not answered': [*LAWFUL, *(each for each in TALK if each.at not in (105, 109))],
        'an answer to no stop': [*LAWFUL, *(each for each in TALK if each.at != 104)],
        'a worker whose start is not known': [*LAWFUL, *(each for each in TALK if each.at not in (71, 104))],
    },
    'Starts': {
        'a number of another process': [*LAWFUL, started(11, 'n', 7, 'b', 2)],
        'a call before that': [*LAWFUL, act(9, 'stopped', 'n', there=[], **COMES)],
    },
    'sent_by': {
        'a promise that keeps less': other({101: {'works': [0]}}),
        'what was not asked for': [*LAWFUL, act(104, 'asks', **RENEW), act(105, 'gave', call='renew', result=False)],
    },
    'IsAnswer': {
        'the end of an epoch that was refused is done': other({122: {'result': False}}),
        'a promise that was not answered is done': other({102: {'result': 'unanswered'}}),
        'a lease is left out': other({64: {'leases': {}}}),
        'another epoch': other({132: given(132, epoch=3)}), 'nothing is reported': without(103),
    },
    'IsNow': {'it goes back': other({70: {'now': 60}}), 'it is ahead': other({70: {'now': 71}})},
}  # fmt: skip

# What these break, too: the session that was granted the lease doesn't have it any more; it isn't the store's answer.
ALSO = {
    **dict.fromkeys(('another session acquires it', 'the lease is gone', 'a number is left out'), {'EndsNoSooner'}),
    **dict.fromkeys(('an acquire that was refused is done', 'a renewal that was refused is done'), {'IsAnswer'}),
}


class Premises(unittest.TestCase):
    """The judge, on acts of which it is known what is wrong."""

    def refused(self, acts: Iterable[Act]) -> set[str]:
        """By which premises acts are refused; each refusal says so."""
        refused = judge(acts).refused
        for each in refused:
            self.assertTrue(str(each).startswith(f'{each.premise} at {each.act.at}: '))
        return {each.premise for each in refused}

    def test_lawful(self) -> None:
        """All premises are judged, and hold; also with a snapshot that takes long, and a worker that talks."""
        verdict = judge(LAWFUL)
        self.assertEqual((verdict.refused, verdict.never()), ([], []))
        self.assertEqual(verdict.kinds['unit'], 1)
        self.assertEqual(self.refused([*LAWFUL, *SLOW, *TALK]), set())

    def test_each(self) -> None:
        """Each premise is broken in each of these ways, and no other one is but those of `ALSO`."""
        self.assertEqual(BROKEN.keys(), PREMISES.keys())
        for premise, cases in BROKEN.items():
            for case, acts in cases.items():
                with self.subTest(premise=premise, case=case):
                    self.assertEqual(self.refused(acts), {premise, *ALSO.get(case, ())})

    def test_never(self) -> None:
        """A premise by which no act was judged is named."""
        self.assertEqual(judge([]).never(), list(PREMISES))
        left = [each for each in LAWFUL if each.kind != 'stopped_on']
        self.assertEqual(judge(left).never(), ['HasEndedOn'])

    def test_killed_in_an_append(self) -> None:
        """What was requested by a process that was killed meanwhile may have been done."""
        cut = [each for each in LAWFUL if each.at <= 51]
        rest = [*snapshot(60, ROWS, {'a': OWN}, state(live=None), state(end=2, live=None), 'n')]
        self.assertEqual(self.refused([*cut, started(11, 'n', 8, 'b', 2), *rest]), set())
        none = [*snapshot(60, [], {'a': OWN}, state(live=None), state(live=None), 'n')]
        self.assertEqual(self.refused([*cut, started(11, 'n', 8, 'b', 2), *none]), set())
