"""The monitor of the premises that the promises about members that run have of drivers (`docs/PROMISES.md`): it judges
the acts of processes, and names the premise of each that isn't an act of a run. It has no rule of members.
"""
from __future__ import annotations

import json
from collections import Counter, defaultdict
from collections.abc import Iterable, Mapping, Sequence
from dataclasses import dataclass, field
from typing import Any

from .premises import Act, Lease, Lengths, Refusal, Span, Store, Sureness, Verdict
from .timing import Timing

RULES = {'starts', 'steps', 'answered', 'learned', 'shown', 'followed', 'stopped', 'stopped_on'}
OF_CLOCK = RULES | {'asks', 'gave'}  # acts by which the clock of a member is read
READS, GRANTS = {'snapshot', 'opening'}, {'acquire', 'renew'}
ARGUMENTS = {  # of the call of a request: those that the request decides
    'acquire': ('name', 'session', 'epoch', 'offset'), 'renew': ('name', 'session'), 'release': ('name', 'session'),
    'promise': ('name', 'session', 'epoch', 'offset', 'works'), 'append': ('epoch', 'offset'),
    'roll_over': ('epoch', 'offset'), 'snapshot': ('epoch', 'offset'), 'opening': (),
}  # fmt: skip
ROUNDED = 1000  # nanoseconds that a moment may gain, because the member tells the watchdog seconds


@dataclass
class Work:
    """Work on a partition: since when by which token."""

    tokens: dict[int, int] = field(default_factory=dict)
    ended_by: str = ''  # how its end was reported, if it was


@dataclass
class WorkerProcess:
    """A process of a worker: where it works, as it was told; and the stops that it hasn't answered."""

    partitions: set[int]
    stops: list[set[int]] = field(default_factory=list)


@dataclass
class Course:
    """What a member has done so far: that of one process, which may begin anew with a number of its own."""

    start: Mapping[str, Any] = field(default_factory=dict)
    names: Sequence[str] = ()
    is_cooperative: bool = False
    tries: int = 0
    last: int = 0  # when it was called last
    shown: int = 0  # what its clock showed after that
    state: Mapping[str, Any] = field(default_factory=dict)  # as the last call left it
    latest: int = 0  # until when its lease has been sure at the latest, by its clock
    ahead: int = 0  # by how much that was ahead when it was read last
    step: Act | None = None  # the request that isn't answered yet
    asks: Act | None = None  # the call of the log that is this request
    gave: Act | None = None
    call: Act | None = None  # the last call of the log
    learned: list[str] = field(default_factory=list)  # the rows since that request
    leases: dict[str, Lease] = field(default_factory=dict)  # as it was shown them last
    revision: int = 0
    own: Lease | None = None  # its own lease with its last promise since then, if that was done
    since: int | None = None  # since when its session has been sure, if it is
    released: int | None = None  # the session that it has asked to release
    works: dict[int, Work] = field(default_factory=dict)
    over: dict[int, Work] = field(default_factory=dict)
    processes: dict[int, WorkerProcess] = field(default_factory=dict)

    @property
    def name(self) -> str:
        return str(self.start['name'])

    def named(self, node: int) -> str:
        """The name of a node in its epoch."""
        return self.names[node - 1] if node <= len(self.names) else str(node)


class Judge:
    """Judges acts, in the order of their moments."""

    def __init__(self, store: Store) -> None:
        self.store, self.sureness, self.timing = store, Sureness(), Timing(store.is_file)
        self.kinds: Counter[str] = Counter()
        self.judged: Counter[str] = Counter()
        self.refused: list[Refusal] = []
        self.courses: dict[str, Course] = defaultdict(Course)
        self.numbers: set[int] = set()  # of processes

    def hold(self, premise: str, is_so: bool, act: Act, why: str) -> None:
        self.judged[premise] += 1
        if not is_so:
            self.refused.append(Refusal(premise, act, why))

    def see(self, act: Act) -> None:
        """The next act."""
        self.kinds[act.kind] += 1
        course = self.courses[act.member]
        if act.kind in RULES - {'starts'} and not course.start:
            self.hold('Starts', False, act, 'it has not started')
            return
        shown = act.more['shows'][1] if 'shows' in act.more else act.at
        if act.kind in RULES and 'now' in act.more:
            is_now = course.shown <= act.more['now'] <= shown
            self.hold('IsNow', is_now, act, f'its clock showed {course.shown} before, and {shown} after that')
        if act.kind != 'kept':
            getattr(self, f'_{act.kind}')(course, act)
        if 'shows' in act.more and act.kind in OF_CLOCK:
            self.timing.read(act, self.hold)
        if act.kind in RULES:
            self._see_sureness(course, act)
            course.last, course.state = act.at, act.more
            if act.kind != 'learned':  # that and what the snapshot shows are one report, with one time
                course.shown = shown

    def end(self) -> Verdict:
        """All acts were seen."""
        for course in self.courses.values():
            self._close(course, course.last)
        self.sureness.judge(self.hold)
        self.timing.judge(self.hold)
        late = sorted(late for each in self.timing.late.values() for _, late in each)
        return Verdict(self.kinds, self.judged, self.refused, late)

    # Calls on the rules.

    def _starts(self, course: Course, act: Act) -> None:
        process = act.more['process']
        self.hold('Starts', process not in self.numbers, act, 'another one had this number')
        self.numbers.add(process)
        self.timing.ttl[act.member] = self.timing.ttl[process] = act.more['ttl']
        self._close(course, act.at)
        course.start, course.state, course.tries, course.released, course.step = act.more, {}, 0, None, None
        self._enter(course, act, act.more)

    def _enter(self, course: Course, act: Act, opening: Mapping[str, Any]) -> None:
        """The member is told of this epoch."""
        epoch = opening['epoch']
        there = self.store.epochs.get(epoch)
        has_begun = epoch - 1 not in self.store.epochs or self.store.rolled.get(epoch - 1, act.at) < act.at
        told = opening['header'], opening['is_cooperative'], opening['node']
        kept = None
        if there is not None and has_begun and course.name in there['names']:
            kept = there['header'], there['is_cooperative'], there['names'].index(course.name) + 1
        self.hold('IsEpochOf', told == kept, act, f'the store has {kept}')
        if act.more['in'] == epoch != course.state.get('in'):
            course.names, course.is_cooperative = there['names'] if there is not None else (), opening['is_cooperative']
            course.leases, course.own, course.revision = {}, None, 0

    def _steps(self, course: Course, act: Act) -> None:
        if act.more['step'] == 'Ask':
            if course.step is not None:
                self._see_answer(course, act, False)  # nothing was reported of the one before
            course.step, course.asks, course.gave, course.learned = act, None, None, []
            if act.more['request'] == 'release':
                course.released = act.more['session'][1]
        elif act.more['step'] == 'Begin':
            self.hold('BeginsWhileSure', act.more['now'] < act.more['sure'], act, 'its lease is not sure')
            for partition in act.more['owned']:
                work = course.works.setdefault(partition, Work())
                work.tokens.setdefault(act.more['token'], act.at)

    def _see_answer(self, course: Course, act: Act, is_so: bool) -> None:
        """The request under way is answered so."""
        gave = course.gave.more['result'] if course.gave is not None else 'nothing'
        self.hold('IsAnswer', is_so, act, f'the store gave {json.dumps(gave)[:400]}')
        course.step = course.asks = course.gave = None

    def _answered(self, course: Course, act: Act) -> None:
        step, asks, gave = course.step, course.asks, course.gave
        wanted = None
        if gave is not None and not isinstance(gave.more['result'], dict):
            wanted = {True: 'done', False: 'refused'}.get(gave.more['result'], 'unanswered')
        if step is not None and step.more['request'] in GRANTS and act.more['answer'] == 'done':
            self.hold('IsTrueAnswer', wanted == 'done', act, f'the request was {wanted}')
        self._see_answer(course, act, act.more['answer'] == wanted)
        if step is not None and asks is not None and wanted == 'done' and asks.more['call'] in ('acquire', 'promise'):
            more, works = step.more, step.more['works'] if asks.more['call'] == 'promise' else []
            course.own = [*more['session'], more['in'], more['offset'], works]

    def _learned(self, course: Course, act: Act) -> None:
        epoch, offset, rows = (act.more[word] for word in ('epoch', 'offset', 'rows'))
        wanted = self.store.rows(epoch, offset, offset + len(rows))
        self.hold('AreRowsOf', rows == wanted, act, f'the log has {wanted[:5]} ..')
        course.learned = rows

    def _shown(self, course: Course, act: Act) -> None:
        asks, gave = course.asks, course.gave
        found = gave.more['result'] if gave is not None and gave.more['call'] == 'snapshot' else None
        if asks is None or gave is None or not isinstance(found, dict):
            self._see_answer(course, act, False)
            return
        leases = {course.named(int(node)): lease for node, lease in act.more['leases'].items()}
        own = [lease[1] for lease in leases.values() if lease[0] == course.start['process']]
        self.hold('ShowsAsked', max(own, default=0) <= course.tries, act, f'it has asked for {course.tries} sessions')
        there = {name: lease for name, lease in found['holders'].items() if name in course.names}
        is_same = (found['epoch'], found['rows']) == (act.more['epoch'], course.learned)
        self._see_answer(course, act, is_same and (found['is_paused'] or leases == there))
        course.leases, course.own, course.revision = leases, None, found['revision']
        if act.more['epoch'] == act.more['in']:
            self._see_whole(act, asks.at, gave.at, found['holders'].values())

    def _see_whole(self, act: Act, asked: int, gave: int, leases: Iterable[Lease]) -> None:
        """A snapshot that was requested and given at these moments is of one moment: that isn't before a promise was
        requested which it has."""
        since = max([asked, *(self.store.promised.get(json.dumps(lease), 0) for lease in leases)])
        lengths, end = self.store.lengths.get(act.more['epoch'], Lengths([])), act.more['end']
        least, most = lengths.least(since), lengths.most(gave)
        is_so = end in lengths.there and least <= end <= most
        self.hold('IsWhole', is_so, act, f'the log had from {least} to {most} rows from {since} to {gave}')

    def _followed(self, course: Course, act: Act) -> None:
        opening, gave = act.more['opening'], course.gave
        found = gave.more['result'] if gave is not None else None
        if not isinstance(found, dict) or gave is None or gave.more['call'] != 'opening':
            self._see_answer(course, act, False)
        elif opening is None:
            self._see_answer(course, act, course.name not in found['names'])
        else:
            self._see_answer(course, act, found['epoch'] == opening['epoch'])
            self._enter(course, act, opening)

    def _stopped(self, course: Course, act: Act) -> None:
        everywhere = set(course.works).union(*(process.partitions for process in course.processes.values()))
        self._see_ended(course, act, 'HasEnded', everywhere)

    def _stopped_on(self, course: Course, act: Act) -> None:
        self._see_ended(course, act, 'HasEndedOn', {act.more['partition']})

    def _see_ended(self, course: Course, act: Act, premise: str, partitions: set[int]) -> None:
        """No process is there that works on these."""
        there = [each for each in act.more['there'] if each in course.processes]
        works = {each: course.processes[each].partitions & partitions for each in there}
        going_on = {each: sorted(where) for each, where in works.items() if where}
        self.hold(premise, not going_on, act, f'processes work on: {going_on}')
        for partition in partitions & course.works.keys():
            course.over[partition] = work = course.works.pop(partition)
            work.ended_by = premise

    # Leases.

    def _see_sureness(self, course: Course, act: Act) -> None:
        """Whether the member is sure of its lease from now on."""
        live, before, now = act.more['live'], course.state.get('live'), act.at + self.timing.ahead(act.member)
        is_sure = live is not None and act.more['sure'] > now and live != course.released
        if course.since is not None and (not is_sure or live != before or course.state['sure'] < now):
            self._close(course, act.at)
        if is_sure and course.since is None:
            course.since = act.at
        course.latest, course.ahead = max(course.latest, act.more['sure']), self.timing.ahead(act.member)

    def _close(self, course: Course, at: int) -> None:
        """What was sure is so no longer."""
        if course.since is not None:
            session = course.start['process'], course.state['live']
            until = course.state['sure'] - course.ahead
            self.sureness.spans[course.name].append(Span(course.since, min(at, until), session))
            course.since = None

    # Calls of the log.

    def _asks(self, course: Course, act: Act) -> None:
        call, step = act.more['call'], course.step
        course.call = act
        if step is None or course.asks is not None or step.more['request'] != call:
            if call not in READS:
                self.hold('sent_by', False, act, 'the rules do not ask for it')
            return
        course.asks = act
        if call == 'release':
            process, number = act.more['session']
            self.timing.end((process, number), act.at)
        if call == 'acquire':
            course.tries += 1
            wanted = [course.start['process'], course.tries]
            self.hold('NumbersLast', act.more['session'] == wanted, act, f'the next session is {wanted}')
        offset = course.state['end'] if call == 'snapshot' else step.more['offset']
        asked = {**step.more, 'name': course.name, 'epoch': step.more['in'], 'offset': offset}
        is_same = all(act.more[word] == asked[word] for word in ARGUMENTS[call])
        self.hold('sent_by', is_same, act, f'the rules ask for {step.more}')
        if call == 'append':
            self._see_known(course, step, act, 'WritesAsKnown', act.more['rows'] == step.more.get('rows'))
        elif call == 'roll_over':
            self._see_known(course, step, act, 'ClosesAsKnown', len(set(act.more['names'])) == len(act.more['names']))

    def _see_known(self, course: Course, step: Act, act: Act, premise: str, is_so: bool) -> None:
        """What a change names of leases is what the member was shown, and its own last promise."""
        known, given, wanted = act.more['known'], None, None
        if course.is_cooperative and not step.more['is_ending']:
            affected = sorted(map(course.named, step.more['affected']))
            leases = {**course.leases, **({course.name: course.own} if course.own is not None else {})}
            wanted = affected, {name: leases.get(name) for name in affected}, course.revision
        if known is not None:
            named = {name: known['holders'].get(name) for name in known['affected']}
            given = known['affected'], named, known['revision']
        why = f'the member knows {wanted}, and its rows are {step.more.get("rows")}'
        self.hold(premise, is_so and given == wanted, act, why)

    def _gave(self, course: Course, act: Act) -> None:
        asks, call, result = course.call, act.more['call'], act.more['result']
        if asks is None or asks.more['call'] != call:
            self.hold('IsAnswer', False, act, 'nothing was requested')
            return
        if asks is course.asks:
            course.gave = act
        if call == 'snapshot' and isinstance(result, dict):
            holders = {name: (lease[0], lease[1]) for name, lease in result['holders'].items()}
            self.sureness.seen.append((act, asks.at, holders))
            self.timing.holders(act, asks.at, holders)
        elif call in GRANTS and result is True:
            name, (process, number) = asks.more['name'], asks.more['session']
            if call == 'acquire':
                self.sureness.seen.append((act, asks.at, {name: (process, number)}))
                self.timing.holders(act, asks.at, {name: (process, number)}, name)
            self.timing.grant(name, (process, number), asks.at, act.at)

    # Workers.

    def _see_start(self, course: Course, act: Act, token: int, partitions: Iterable[int]) -> None:
        """Work starts on these partitions, by a token."""
        why, until = f'the lease is sure until {course.latest}', act.more['until']
        self.hold('BeginsWhileSure', act.at + course.ahead < until, act, why)
        self.hold('WorksInTime', until <= course.latest + ROUNDED, act, why)
        for partition in partitions:
            work = course.works.get(partition, Work())
            is_so = work.tokens.get(token, act.at) < act.at
            self.hold('MayStart', is_so, act, f'on partition {partition} work may start by {sorted(work.tokens)}')

    def _runs(self, course: Course, act: Act) -> None:
        course.processes[act.more['process']] = WorkerProcess(set(act.more['partitions']))
        if act.more['token']:
            self._see_start(course, act, act.more['token'], act.more['partitions'])

    def _tells(self, course: Course, act: Act) -> None:
        process, more = course.processes.setdefault(act.more['process'], WorkerProcess(set())), act.more
        if 'begin' in more:
            process.partitions |= set(more['partitions'])
            self._see_start(course, act, more['begin'], more['partitions'])
        else:
            process.stops.append(set(process.partitions if more['stop'] is True else more['stop']))

    def _heard(self, course: Course, act: Act) -> None:
        """The next stop is answered. An answer to none ends no work."""
        process = course.processes.get(act.more['process'])
        if process is not None and process.stops:
            process.partitions -= process.stops.pop(0)

    def _says(self, course: Course, act: Act) -> None:
        self.hold('HasEnded', not act.more['there'], act, 'processes are left')
        course.processes[act.more['process']] = WorkerProcess(set())
        if act.more['word'] == 'lost':
            shown = act.more['shows'][1] if 'shows' in act.more else act.at
            if shown > course.latest:  # else the watchdog didn't hear of the last renewal
                self.timing.ended_by_watchdog(act, shown - course.latest)

    def _gone(self, course: Course, act: Act) -> None:
        """The member of a watchdog is gone, whose lease is released next."""
        self.hold('HasNoWork', not act.more['there'], act, 'processes are left')
        if course.start:
            self.timing.end(course.start['process'], act.at)

    def _unit(self, course: Course, act: Act) -> None:
        """A unit of work that was done, or that its worker was killed in."""
        partition, token, begun = (act.more[word] for word in ('partition', 'token', 'begun'))
        work, over = course.works.get(partition, Work()), course.over.get(partition, Work())
        has_ended = token in over.tokens and token not in work.tokens
        premise = over.ended_by if has_ended else 'MayStart'
        is_so = work.tokens.get(token, begun) < begun
        why = f'work goes on there by {sorted(work.tokens)}, and by {sorted(over.tokens)} it had ended'
        self.hold(premise, is_so, act, why)


def judge(acts: Iterable[Act]) -> Verdict:
    """Judges these acts."""
    ordered = sorted(acts, key=lambda act: act.at)
    monitor = Judge(Store(ordered))
    for act in ordered:
        monitor.see(act)
    return monitor.end()
