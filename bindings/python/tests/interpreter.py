"""Interprets the stories of `bindings/stories`: makes their calls through this package, and tells its answers as they
have them."""
from __future__ import annotations

from collections.abc import Callable, Sequence
from enum import Enum
from itertools import islice
from typing import Any

import bully
from bully import Agent, BullyError, NotLearned, Owned, Replica, Setup, State, check, plan_table

from bully.core import (
    Ask, BackOff, Begin, Core, CoreOpening, End, Lease, Live, Promise, Seen, Session, Step, StoreAnswer, Unknown,
    Wait,
)  # fmt: skip
from bully.settings import ConfigFault, read_settings
from stories import Call, Fields, Story, Value, Word

Arguments = Sequence[Any]
# The names whose numbers are 0.
ZEROS = {'NONE', 'IDLE', 'ABSENT', 'DOWN', 'NOTHING', 'NO_CALL_KIND', 'LAWFUL', 'OK'}


# ---- What the package returns, as stories tell it


def word(value: Enum | None, none: str = 'NONE') -> Word:
    return Word(value.name if value else none)


def text(rows: Sequence[str]) -> bytes:
    return ''.join(f'{row}\n' for row in rows).encode()


def row(told: str | None) -> bytes:
    return text([told] if told else [])


def owned(value: Owned | None) -> list[Value]:
    return [value.token, list(value.partitions)] if value else [0, []]


def whole(**named: Value) -> Fields:
    return Fields(named, True)


def state(shown: State, events: int, number: int) -> Fields:
    call = shown.call
    return whole(
        status=word(shown.status), wants=word(shown.wants), events=events, generation=shown.generation, number=number,
        call=word(call.kind if call else None, 'NO_CALL_KIND'), orphan=int(call is not None and call.is_orphan),
        node=shown.node,
        coordinator=shown.coordinator or 0, halter=shown.halter or 0, callee=call.callee if call else 0,
    )  # fmt: skip


def step(taken: Step) -> Fields:
    if isinstance(taken, Ask):
        session = taken.session
        asked = whole(process=session.process, number=session.number, offset=taken.offset, request=word(taken.request))
        return whole(kind=Word('ASK'), **asked.named)
    if isinstance(taken, Begin):
        return whole(kind=Word('BEGIN'), token=taken.token)
    if isinstance(taken, Wait):
        return whole(kind=Word('WAIT'), at_most=taken.at_most, until=word(taken.until), reason=word(taken.reason))
    if isinstance(taken, BackOff):
        return whole(kind=Word('BACK_OFF'), at_most=taken.at_most, reason=word(taken.reason))
    return whole(kind=Word('END'), ending=word(taken.ending)) if isinstance(taken, End) else whole(kind=Word('STOP'))


def member_state(core: Core, now: int) -> Fields:
    shown, work = core.session, core.work
    session, since = shown.session if shown else Session(0, 0), shown.since if isinstance(shown, Live) else 0
    names = {Live: 'LIVE', Unknown: 'UNKNOWN'}
    return whole(
        process=session.process, number=session.number, since=since, sure_left=max(core.sure_until - max(now, since),
        0),
        session=Word(names.get(type(shown), 'ABSENT')), promised=core.promised, work=word(work.way if work else None,
        'IDLE'),
        token=work.token if work else 0, ending=word(core.ending), epoch=core.epoch, offset=core.offset, node=core.node,
        has_request=int(core.has_request),
    )  # fmt: skip


def group(learned: Replica | Core) -> Fields:
    return whole(
        rows=learned.rows, events=learned.events, token=learned.token or 0, planner=learned.planner or 0,
        nodes=learned.nodes, partitions=learned.partitions, keeps=int(learned.keeps),
    )  # fmt: skip


def planned(learned: Replica | Core) -> list[Value]:
    return [list(learned.last_table or ())]


# ---- What stories give


def setup(given: Sequence[int], weights: Sequence[int]) -> Setup:
    nodes, partitions, events_max, keeps = given
    return Setup(nodes, partitions, events_max, tuple(weights), bool(keeps))


def rows(told: bytes) -> list[bytes]:
    return told.split(b'\n')[:-1]


def opening(header: bytes, epoch: int, node: int, rows_max: int, old: Sequence[int], cooperative: int) -> CoreOpening:
    return CoreOpening(header, epoch, node, rows_max, tuple(old) or None, bool(cooperative))


def lease(given: Sequence[int], kept: Sequence[int] = ()) -> Lease:
    process, number, epoch, offset, node, _, is_leaving = given
    return Lease(node, Session(process, number), Promise(epoch, offset), tuple(kept), bool(is_leaving))


def leases(given: Sequence[Sequence[int]], kept: Sequence[int]) -> tuple[Lease, ...]:
    """Each with as many of the partitions as it keeps."""
    left = iter(kept)
    return tuple(lease(each, list(islice(left, each[5]))) for each in given)


def learn_of_member(core: Core, told: bytes) -> list[Value]:
    """A row that isn't learned ends a member, and its exception is kept."""
    before, core.fault = core.rows, None
    core.learn(rows(told))
    if core.fault:
        raise core.fault
    return [core.rows - before]


def judged(trace: bytes) -> list[Value]:
    verdict = check(trace)
    return [whole(kind=word(verdict.kind), number=verdict.number, cause=Word(name_of(verdict.cause)))]


def name_of(cause: type[BullyError] | None) -> str:
    return bully.status_name(cause.status if cause else 0)


def configured(document: bytes) -> list[Value]:
    settings = read_settings(document)
    names = [each.encode() for each in settings.names]
    return [row(settings.setup.header()) + b''.join(b'%d:%s\n' % (len(each), each) for each in names)]


def planned_table(
    given: Sequence[int], weights: Sequence[int], members: Sequence[int], old: Sequence[int]
) -> list[Value]:
    plan = plan_table(setup(given, weights), members, old or None)
    return [list(plan.owners), plan.moves]


# ---- The calls, by their names

AGENT: dict[str, Callable[..., list[Value]]] = {
    'close': lambda agent: none(agent.close()),
    **{name: lambda agent, name=name: none(getattr(agent, name)()) for name in (
        'recover', 'crash', 'check', 'timeout', 'start', 'advance', 'drop_orphan',
    )},
    'plan': lambda agent, owners: none(agent.plan(owners)),
    'prepare': lambda agent, old: [list(agent.prepare(old or None))],
    'request': lambda agent: [(agent.request() or '').encode()],
    'serve': lambda agent, line: [agent.serve(line).encode()],
    'replied': lambda agent, line: [word(agent.replied(line))],
    'failed': lambda agent, number: [word(agent.failed(number))],
    'show': lambda agent: [state(agent.state, agent.events, agent.number)],
    'up': lambda agent: [list(agent.up)],
    'task': lambda agent: [list(agent.task or ())],
    'rows': lambda agent: [text(agent.rows())],
    'claim': lambda agent: [row(agent.claim())],
}  # fmt: skip
REPLICA: dict[str, Callable[..., list[Value]]] = {
    'close': lambda replica: none(replica.close()),
    'learn': lambda replica, told: [replica.learn(rows(told))],
    'next': lambda replica, node: [row(replica.next(node))],
    'event': lambda replica, node, event: [row(getattr(replica, event.lower())(node))],
    'show': lambda replica, node: [state(replica.state(node), replica.events, 0)],
    'up': lambda replica, node: [list(replica.up(node))],
    'task': lambda replica, node: [list(replica.task(node) or ())],
    'group': lambda replica: [group(replica)],
    'planned': planned,
    'rebalance': lambda replica, live, old: [text(replica.rebalance(live, old or None))],
    'is_stable': lambda replica, live, offset: [int(replica.is_stable(live, offset))],
    'owned': lambda replica, node, offset: owned(replica.owned(node, offset)),
}
MEMBER: dict[str, Callable[..., list[Value]]] = {
    'close': lambda core: none(core.close()),
    **{name: lambda core, name=name: none(getattr(core, name)()) for name in ('passed', 'woke', 'leave', 'stopped')},
    'next': lambda core, now: [step(core.next(now))],
    'answered': lambda core, now, answer: none(core.answered(now, StoreAnswer[answer])),
    'learn': learn_of_member,
    'snapshot_read': lambda core, now, epoch, given, kept, unknown, request: none(
        core.snapshot_read(now, Seen(epoch, leases(given, kept), bool(unknown), bool(request)))
    ),
    'followed': lambda core, now, *given: none(core.followed(now, opening(*given))),
    'not_there': lambda core: none(core.followed(0, None)),
    'lost': lambda core, token: none(core.lost(token)),
    'stopped_on': lambda core, partition: none(core.stopped_on(partition)),
    'rebalance': lambda core: [text(core.rebalance())],
    'owned': lambda core: owned(core.owned()),
    'owned_of': lambda core, given: owned(core.owned_of(lease(given))),
    'activities': lambda core: [[word(each) for each in core.activities()]],
    'works': lambda core: [list(core.works())],
    'is_affected': lambda core, node: [int(core.is_affected(node))],
    'is_stable': lambda core: [int(core.is_stable())],
    'needs_promises': lambda core, now: [int(core.needs_promises(now))],
    'show': lambda core, now: [member_state(core, now)],
    'node': lambda core, node: [state(core.state(node), core.events, 0)],
    'group': lambda core: [group(core)],
    'planned': planned,
}
OPENINGS: dict[str, Callable[..., Agent | Replica | Core]] = {
    'agent': lambda given, weights, node, events, task: Agent(setup(given, weights), node, events, task or None),
    'replica': lambda header: Replica(header),
    'member': lambda *given: Core(opening(*given[:-2]), *given[-2:]),
}
CALLS: dict[str, dict[str, Callable[..., list[Value]]]] = {
    'agent': AGENT, 'replica': REPLICA, 'member': MEMBER,
    '': {
        'check': judged,
        'header': lambda given, weights: [row(setup(given, weights).header())],
        'detailed_header': lambda given, weights: [row(setup(given, weights).detailed_header())],
        'configuration': configured,
        'table': planned_table,
    },
}  # fmt: skip


def none(told: None) -> list[Value]:
    return []


# ---- What is wanted


def is_same(wanted: Value, told: Value) -> bool:
    """Whether this is what is wanted: of a struct what is named, and if it is whole nothing else."""
    if isinstance(wanted, Fields) and isinstance(told, Fields):
        others = set(told.named) - set(wanted.named) if wanted.is_whole else set()
        return all(is_same(each, told.named[name]) for name, each in wanted.named.items()) and all(
            is_zero(told.named[name]) for name in others
        )
    if isinstance(wanted, list) and isinstance(told, list):
        return len(wanted) == len(told) and all(map(is_same, wanted, told))
    return wanted == told or is_zero(wanted) and is_zero(told)


def is_zero(value: Value) -> bool:
    return value in ZEROS if isinstance(value, Word) else value == 0 and not isinstance(value, (bytes, list))


def shown(handle: Agent | Replica | Core) -> list[Value]:
    """All that a handle shows."""
    if isinstance(handle, Agent):
        return [each for name in ('show', 'up', 'task', 'claim', 'rows', 'request') for each in AGENT[name](handle)]
    nodes = range(1, handle.nodes + 1)
    learned = [group(handle), *planned(handle)]
    if isinstance(handle, Core):
        of_nodes = [MEMBER['node'](handle, node) for node in nodes]
        return [*learned, member_state(handle, 0), *of_nodes, *MEMBER['activities'](handle), *MEMBER['works'](handle)]
    return [*learned, *(REPLICA[name](handle, node) for name in ('show', 'up', 'task', 'next') for node in nodes)]


class Interpreter:
    """Makes the calls of a story. Handles that are open at its end are closed."""

    def __init__(self) -> None:
        self.handles: dict[str, Agent | Replica | Core] = {}

    def __enter__(self) -> Interpreter:
        return self

    def __exit__(self, *error: object) -> None:
        for handle in self.handles.values():
            handle.__exit__()

    def make(self, call: Call) -> list[Value]:
        """Makes the call, and returns what it writes. Raises BullyError."""
        if call.name == 'open':
            self.handles[call.handle] = OPENINGS[call.kind](*call.arguments)
            return []
        held = [self.handles[call.handle]] if call.handle else []
        return CALLS[call.kind][call.name](*held, *call.arguments)

    def answer(self, call: Call) -> tuple[str, list[Value]]:
        """The status of the call, and what it writes."""
        try:
            return 'OK', self.make(call)
        except NotLearned as fault:
            return bully.status_name(fault.status), [fault.taken]
        except ConfigFault as fault:
            return 'BAD_CONFIG', [str(fault).encode()]
        except bully.TraceFault as fault:
            return bully.status_name(fault.status), [whole(number=fault.row or 0)]
        except BullyError as fault:
            return bully.status_name(fault.status), []

    def take(self, call: Call) -> None:
        """Makes the call, which must answer as the story says. One that is refused changes nothing. Raises
        AssertionError."""
        handle = self.handles.get(call.handle)
        is_seen = (
            call.status != 'OK'
            and handle is not None
            and not handle.is_closed
            and (call.kind, call.name) != ('member', 'learn')
        )
        is_seen = is_seen and not (call.name == 'learn' and call.answers[0])
        before = shown(handle) if is_seen and handle else []
        status, told = self.answer(call)
        wanted = call.answers if call.answers or status == call.status == 'OK' else []
        assert status == call.status, f'{call.place}: {status} {told}'
        assert not wanted or is_same(wanted, told), f'{call.place}: {told}'
        if is_seen and handle:
            assert shown(handle) == before, f'{call.place}: it changes something'

    def log(self, call: Call) -> None:
        """A new replica learns the rows so, and `check` judges the log alike. Raises AssertionError."""
        header, told = call.arguments
        events = call.answers[-1]
        assert isinstance(header, bytes) and isinstance(told, bytes) and isinstance(call.answers[0], int)
        with Replica(header) as replica:
            try:
                replica.learn(rows(told))
                status = 'OK'
            except NotLearned as fault:
                status = bully.status_name(fault.status)
            assert (status, replica.rows, replica.events) == (
                call.status,
                call.answers[0],
                events,
            ), f'{call.place}: {status} {shown(replica)}'
        trace = Call(
            call.file, call.line, '', 'check', [header + told], *verdict_of(call.status, call.answers[0], events)
        )
        self.take(trace)


def verdict_of(status: str, taken: int, events: Value) -> tuple[str, list[Value]]:
    """What `check` answers if a replica learns so many rows, and then none."""
    row = taken + 2
    if status in ('BAD_HEADER', 'BAD_ROW', 'TOO_MANY_ROWS'):
        return status, [Fields({'number': row}, False)]
    kind = {'OK': 'LAWFUL', 'ROW_DIFFERS': 'DIFFERS'}.get(status, 'REFUSED')
    cause = Word(status if kind == 'REFUSED' else 'OK')
    return 'OK', [whole(kind=Word(kind), number=events if status == 'OK' else row, cause=cause)]


def tell(story: Story) -> None:
    """Makes the calls of the story. Raises AssertionError."""
    with Interpreter() as interpreter:
        for call in story.calls:
            (interpreter.log if call.name == 'log' else interpreter.take)(call)
