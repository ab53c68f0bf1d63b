"""A trial: faults that happen to a group of processes. After each the group must become stable; or after a share of
them, while others come at once."""
from __future__ import annotations

import random
import signal
import subprocess
import time
from collections import Counter
from collections.abc import Callable, Iterator, Sequence
from contextlib import contextmanager, suppress
from functools import partial
from typing import NamedTuple, TypeVar

from .groups import Group, live_in, shown_seconds
from .processes import ProcessHandle, close_all, family, send_all
from .stores import Store
from .waiting import wait_until

# Seconds that the group gets to become stable where other faults come at once: a node that comes again and again is
# admitted later and later.
STABLE_MAX = 12.0
BEGIN_MAX = 1.0  # seconds after its end, within which a member is begun again there
FIND_MAX = 30.0  # seconds in which a fault must find whom it can happen to, and must be seen
FAULT_MAX = 10.0  # seconds that each fault gets more, up to which all must have happened
STEADY = 1.25  # of the ttl: by then each lease has been renewed, or has ended
SLICE = 0.25  # seconds of one wait

_Found = TypeVar('_Found')


class Step(NamedTuple):
    """A part of a fault has happened. The next one comes after so many seconds; or, if the group is to become stable
    after `what`, once it is. The member of the node `away` can't be there up to the next part, and that of the node
    `ends` must end by itself."""

    what: str = ''
    seconds: float = 0.0
    away: str = ''
    ends: str = ''
    is_steady: bool = False  # leases may still end for a while, so the group must stay stable for longer


Steps = Iterator[Step]


class Fault(NamedTuple):
    """What happens to a group: it gives its parts, each once it was seen to happen; none, if it can't happen now."""

    name: str
    happens: Callable[[Trial], Steps]
    ends: Sequence[int] = ()  # the statuses with which a member that it happens to may end
    needs: str = ''  # the kind of store that it takes, or what of the machine
    breaks: Sequence[str] = ()  # the premises that it breaks
    is_alone: bool = False  # it happens to a stable group, and nothing else happens meanwhile
    is_named: bool = False  # it is tried only if it is named
    times: int = 1  # while each other one happens once
    rates: Sequence[float] = ()  # of the members' clocks in a group of their own: one for each, or one for all


class Later(NamedTuple):
    """What is done at that moment: the next part of a fault comes, or a member begins."""

    moment: float
    do: Callable[[], object]


class Trial:
    """A group, and what happens to it. Whoever ends is begun again."""

    def __init__(self, group: Group, store: Store, choice: random.Random, share: float) -> None:
        """After this share of the faults the group gets time to become stable."""
        self.group, self.store, self.choice, self.share = group, store, choice, share
        self.names = [node.name for node in group.shown.nodes]
        self.happened: Counter[str] = Counter()
        self.statuses: Counter[int] = Counter()  # of members that ended
        self.fault: Fault | None = None  # the last one
        self.later: list[Later] = []
        self.order: Iterator[str] = iter(())  # the nodes whose members the next faults happen to, if that isn't random
        self.disturbed = 0  # how many faults happen to the store
        self.to_stable: list[float] = []  # how long the group took to become stable, if it did
        self.never_stable = 0
        self.failed_before = group.counts.failed
        group.meanwhile = self.tend

    # What goes on meanwhile.

    def do_later(self, seconds: float, do: Callable[[], object]) -> None:
        self.later.append(Later(time.monotonic() + seconds, do))

    def tend(self) -> None:
        """Who has ended is begun again, if that may be, and what is due is done."""
        for name, member in list(self.group.members.items()):
            if member.poll() is not None and self.group.may_have_ended(member):
                self.statuses[self.group.members.pop(name).returncode] += 1
                if self.share == 1.0:
                    self.group.begin(name)
                else:
                    self.do_later(self.choice.uniform(0.0, BEGIN_MAX), partial(self.group.begin, name))
        due = [each for each in self.later if each.moment <= time.monotonic()]
        self.later = [each for each in self.later if each not in due]
        for each in due:
            each.do()

    def tend_until(self, find: Callable[[], _Found], seconds: float = FIND_MAX) -> _Found:
        """Goes on until that finds something, for so long at most. What it found."""
        return self.group.await_value(find, time.monotonic() + seconds)

    @property
    def fault_name(self) -> str:
        return self.fault.name if self.fault is not None else ''

    # Whom a fault happens to.

    def strikes(self, name: str) -> None:
        """The fault happens to the member of this node, now."""
        if self.fault is not None:
            self.group.ends[self.group.members[name].pid] = self.fault.ends
        self.group.mark()

    def some_family(self) -> tuple[str, dict[str, ProcessHandle]]:
        """A node, and the processes of its member, which are all there and not paused; nobody, if there are none."""

        wanted = next(self.order, '')

        def find() -> tuple[str, dict[str, ProcessHandle]] | None:
            there = [(name, member) for name, member in self.group.members.items() if member.poll() is None]
            members = [(name, member) for name, member in there if wanted in ('', name)]
            name, member = self.choice.choice(members) if members else ('', None)
            found = family(member.pid) if member is not None else {}
            if any(each.is_stopped for each in found.values()):
                close_all(found.values())
                return None
            return (name, found) if found else None

        name, found = self.tend_until(find) or ('', {})
        if found:
            self.strikes(name)
        return name, found

    def kill(self, name: str) -> bool:
        """The member of this node is killed, once it is live. Whether that was seen."""
        group = self.group

        def live() -> subprocess.Popen[bytes] | None:
            member, shown = group.members.get(name), group.snapshot()
            is_live = shown is not None and name in live_in(shown)
            return member if is_live and member is not None and member.poll() is None else None

        member = self.tend_until(live)
        if member is None:
            return False
        self.strikes(name)
        member.kill()
        return group.ended(member) == -signal.SIGKILL

    def servers_are_up(self) -> bool:
        """Whether what happened to servers before has ended, and all answer, within a while."""
        servers = self.store.servers
        return self.tend_until(lambda: not self.disturbed and (servers is None or servers.are_up()))

    @contextmanager
    def disturbing(self, begin: Callable[[], object], end: Callable[[], object]) -> Iterator[None]:
        """Something happens to the store, or to the way to it."""
        self.disturbed += 1
        begin()
        try:
            yield
        finally:
            end()
            self.disturbed -= 1

    # All of it.

    def start(self, names: Sequence[str], partitions: int) -> bool:
        """Members begin; and then the group gets these nodes and partitions, if it has fewer, and members for them."""
        group, few = self.group, self.names
        is_stable = group.become_stable('the start', lambda: group.begin_all(few))
        if is_stable and len(few) < len(names):
            what = f'a resize from {len(few)} to {len(names)} nodes'
            is_stable = group.become_stable(
                what, lambda: setattr(group, 'config', group.resize(names, partitions))
            ) and group.become_stable('members for new nodes', lambda: group.begin_all(names[len(few) :]))
            self.names = list(names)
        return is_stable

    def try_fault(self, fault: Fault) -> None:
        """It happens, and the group becomes stable after each part of it."""
        self.fault, before = fault, self.happened[fault.name]
        self.group.mark()
        for step in fault.happens(self):
            self.happened[fault.name] = before + 1
            if step.what and not self.settle(step):
                return
            self.tend_until(lambda: False, 0.0 if step.what else step.seconds)
            self.group.mark()
        self.group.count(self.servers_are_up(), f'{fault.name}: the servers are not up after it')

    def settle(self, step: Step) -> bool:
        away, ends = self.group.members.pop(step.away, None), self.group.members.get(step.ends)
        has_ended = self.tend_until(lambda: ends is None or ends.poll() is not None)
        self.group.count(has_ended, f'{step.what}: {step.ends} does not end')
        is_stable = self.group.settle(step.what, STEADY * self.group.ttl if step.is_steady else 0.0)
        if away is not None:
            self.group.members[step.away] = away
        return is_stable

    def run_each(self, faults: Sequence[Fault]) -> None:
        """These faults, one after the other. After a failure of the group there are no more."""
        for fault in faults:
            if not self.has_failed():
                self.try_fault(fault)

    def has_failed(self) -> bool:
        return self.group.counts.failed > self.failed_before

    def run_for(self, seconds: float, faults: Sequence[Fault]) -> None:
        """Faults for so long; each once at least. Those that must be alone come first."""
        self.run_each([fault for fault in faults if fault.is_alone])
        others = [fault for fault in faults if not fault.is_alone]
        end, turns = time.monotonic() + seconds, in_turns(others, self.choice)
        end_of_all = end + FAULT_MAX * len(others)

        def is_over() -> bool:
            now, all_happened = time.monotonic(), all(self.happened[fault.name] for fault in others)
            return now >= end_of_all or now >= end and all_happened

        while not is_over() and not self.has_failed():
            self.fault = next(turns)
            self.go_on_with(self.fault, self.fault.happens(self), True)
            self.go_on()
        self.tend_until(self.is_stable, self.group.patience)
        self.group.mark()
        self.group.settle('the last fault', STEADY * self.group.ttl)

    def go_on_with(self, fault: Fault, steps: Steps, is_first: bool = False) -> None:
        """The next parts of a fault, up to one after which some time passes."""
        for step in steps:
            self.happened[fault.name] += is_first
            is_first = False
            if step.seconds:
                self.do_later(step.seconds, partial(self.go_on_with, fault, steps))
                return

    def go_on(self) -> None:
        """Up to the next fault: often the group gets time to become stable."""
        begun = time.monotonic()
        if self.choice.random() >= self.share:
            self.tend_until(lambda: False, self.choice.random() * self.group.ttl)
        elif self.tend_until(self.is_stable, STABLE_MAX):
            self.to_stable.append(time.monotonic() - begun)
        else:
            self.never_stable += 1

    def is_stable(self) -> bool:
        """Whether all are there, nothing more is to happen, and the group is stable."""
        if self.later or len(self.group.members) < len(self.names):
            return False
        return self.group.stay_stable(0.0, time.monotonic() + SLICE) is not None

    def close(self) -> None:
        """Nobody is begun, and nobody stays paused: faults end as soon as nobody refers to their parts."""
        self.group.meanwhile = lambda: None
        self.later.clear()

    def tell(self) -> None:
        for what, count in self.happened.items():
            print(f'{what}: {count} times')
        print('members that ended by themselves, by status:', dict(self.statuses))
        if self.to_stable or self.never_stable:
            stable = f'stable after {len(self.to_stable)} faults{shown_seconds("in", self.to_stable)}'
            print(f'{stable}; in {self.never_stable} waits of {STABLE_MAX:g} s not')
        self.group.tell()


def in_turns(faults: Sequence[Fault], choice: random.Random) -> Iterator[Fault]:
    """The faults, in each turn each as often as it has to happen. Those of the network, and those that must be alone,
    come before the others, for which there may be no time."""
    each = [fault for fault in faults for _ in range(fault.times)]
    first = [fault for fault in each if fault.needs == 'network'] + [fault for fault in each if fault.is_alone]
    others = [fault for fault in each if fault not in first]
    while each:
        yield from first
        yield from choice.sample(others, len(others))


def waited(is_so: Callable[[], bool]) -> bool:
    """Waits until that is so, for a while, and does nothing else: what is seen may pass. Whether it is."""
    with suppress(AssertionError):
        wait_until(is_so, FIND_MAX)
        return True
    return False
