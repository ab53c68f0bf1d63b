"""Judges acts by the premises about time of `leases_last`: what clocks showed, when leases ended, and how late work did
(`crates/bully_clock/specs/Timed.antt`)."""
from __future__ import annotations

from bisect import bisect_left, bisect_right
from collections import defaultdict
from collections.abc import Callable, Iterator, Mapping
from dataclasses import dataclass, field

from .premises import Act

Hold = Callable[[str, bool, Act, str], None]
TIGHT = 100_000  # nanoseconds: if two moments are further apart, it isn't known when between them a clock was read
STEPS = 50  # readings of a clock in a ttl, at most: more show nothing new
Session = tuple[int, int]


class Clock:
    """What a clock showed at moments; between two of them it runs at one rate."""

    def __init__(self) -> None:
        self.moments: list[int] = []
        self.shown: list[int] = []
        self.acts: list[Act] = []

    def see(self, act: Act, moment: int, shown: int) -> None:
        self.moments.append(moment)
        self.shown.append(shown)
        self.acts.append(act)

    def at(self, moment: int) -> float | None:
        """What it showed then, if it was read before and after."""
        after = bisect_left(self.moments, moment)
        if after == len(self.moments) or after == 0 and self.moments[0] > moment:
            return None
        if self.moments[after] == moment:
            return self.shown[after]
        (first, last), (low, high) = self.moments[after - 1 : after + 1], self.shown[after - 1 : after + 1]
        return low + (high - low) * (moment - first) / (last - first)

    def counts(self, start: int, end: int) -> float | None:
        """How much it has counted between these moments, if it was read before and after."""
        first, last = self.at(start), self.at(end)
        return last - first if first is not None and last is not None else None


class TrueClock(Clock):
    """The clock by which acts are ordered."""

    def at(self, moment: int) -> float | None:
        return moment


@dataclass
class Granted:
    """A lease as its session holds it: when its acquire or last renewal was requested, and when that was answered."""

    session: Session
    asked: int
    done: int


@dataclass
class Timing:
    """All that is known of time."""

    of_file: bool = True  # whether members end leases, each by its own clock; otherwise a server does
    clocks: dict[str, Clock] = field(default_factory=lambda: defaultdict(Clock))  # of members
    ttl: dict[str | int, int] = field(default_factory=dict)  # of members, and of their processes
    grants: dict[str, list[Granted]] = field(default_factory=lambda: defaultdict(list))  # of each node's lease
    seen: list[tuple[Act, int, Mapping[str, Session], list[str]]] = field(default_factory=list)
    over: dict[Session | int, int] = field(default_factory=dict)  # when it was released, or when the process ended
    late: dict[str, list[tuple[Act, int]]] = field(default_factory=lambda: defaultdict(list))  # how late work ended

    # What is seen.

    def read(self, act: Act, hold: Hold) -> None:
        """The member's clock was read. If the process was stopped meanwhile, that says nothing."""
        moment, shown, after = act.more['shows']
        clock = self.clocks[act.member]
        if after - moment < TIGHT and (not clock.moments or moment > clock.moments[-1]):
            before = clock.shown[-1] if clock.shown else shown
            hold('NeverBack', before <= shown, act, f'its clock showed {before} before')
            clock.see(act, moment, shown)

    def ahead(self, member: str) -> int:
        """By how much the member's clock was ahead when it was read last."""
        clock = self.clocks.get(member)
        return clock.shown[-1] - clock.moments[-1] if clock is not None and clock.moments else 0

    def grant(self, name: str, session: Session, asked: int, done: int) -> None:
        self.grants[name].append(Granted(session, asked, done))

    def holders(self, act: Act, asked: int, holders: Mapping[str, Session], name: str | None = None) -> None:
        """Who holds leases, by the answer to what was requested at that moment: of all nodes, or of this one."""
        self.seen.append((act, asked, holders, [name] if name is not None else list(self.grants)))

    def end(self, what: Session | int, at: int) -> None:
        """A session was released, or a process has ended."""
        self.over.setdefault(what, at)

    def ended_by_watchdog(self, act: Act, late: int) -> None:
        """Work was ended so much later than its lease was sure, by the clock of its process."""
        self.late[act.member].append((act, late))

    # What is judged in the end.

    def judge(self, hold: Hold) -> None:
        self._judge_ends(hold)
        for member, clock in self.clocks.items():
            ttl = self.ttl.get(member)
            if ttl is not None:
                least = min(self._judge_clock(clock, ttl, hold), default=float(ttl))
                for act, late in self.late[member]:
                    why = f'late by {late} ns, while its clock counts {least:.0f} in a ttl of {ttl} by the store'
                    hold('WorksInTime', 4 * ttl + 5 * late <= 5 * least, act, why)

    def _enders(self, clock: Clock) -> Iterator[Clock]:
        """The clocks by which leases ended while this one was read."""
        if not self.of_file:
            yield TrueClock()
            return
        for other in self.clocks.values():
            if other.moments[0] < clock.moments[-1] and clock.moments[0] < other.moments[-1]:
                yield other

    def _judge_clock(self, clock: Clock, ttl: int, hold: Hold) -> Iterator[float]:
        """What the clock counts while one of the store counts a ttl, again and again."""
        for ender in self._enders(clock):
            for start, end in spans(clock, ender, ttl):
                own = clock.shown[end] - clock.shown[start]
                why = f'it has counted {own} since {clock.moments[start]}, and a clock of the store {ttl}'
                hold('KeepsUp', 5 * own >= 4 * ttl, clock.acts[end], why)
                yield own

    def _judge_ends(self, hold: Hold) -> None:
        """The first time when somebody sees a lease without the session that was granted it last."""
        ended: set[tuple[str, Session]] = set()
        done = {name: [grant.done for grant in grants] for name, grants in self.grants.items()}
        for act, asked, holders, names in self.seen:
            for name in names:
                index = bisect_right(done.get(name, []), asked) - 1
                grant = self.grants[name][index] if index >= 0 else None
                if grant is None or holders.get(name) == grant.session or (name, grant.session) in ended:
                    continue
                ended.add((name, grant.session))
                self._judge_end(hold, act, name, grant)

    def _judge_end(self, hold: Hold, act: Act, name: str, grant: Granted) -> None:
        ends = self.over.get(grant.session), self.over.get(grant.session[0])
        is_over = any(at is not None and at <= act.at for at in ends)
        ender = self.clocks.get(act.member, Clock()) if self.of_file else TrueClock()
        counted, ttl = ender.counts(grant.asked, act.at), self.ttl.get(grant.session[0], 0)
        if is_over or counted is not None:
            why = f'the lease of {name} by {grant.session} ended {counted} after {grant.asked}, of a ttl of {ttl}'
            hold('EndsNoSooner', is_over or counted is not None and counted >= ttl, act, why)


def spans(clock: Clock, ender: Clock, ttl: int) -> Iterator[tuple[int, int]]:
    """The shortest spans between two readings of a clock, as numbers of these, in which the other one counts a ttl."""
    start = last = 0
    for end, moment in enumerate(clock.moments):
        if moment < last + ttl / STEPS or ender.at(moment) is None:
            continue
        last, first = moment, start
        while start < end and (
            ender.at(clock.moments[start]) is None or has_counted(ender, clock.moments[start], moment, ttl)
        ):
            start += 1
        if start > first and has_counted(ender, clock.moments[start - 1], moment, ttl):
            start -= 1
            yield start, end


def has_counted(clock: Clock, start: int, end: int, ttl: int) -> bool:
    """Whether it has counted a ttl between these moments."""
    counted = clock.counts(start, end)
    return counted is not None and counted >= ttl
