"""`bully-member`, which also writes down what it does: each call on the rules of its member, and each call of the log.

    python -m members.instrumented_member FOLDER WORDS OF BULLY-MEMBER ..

The package isn't changed for that: what is between driver and rules, and between driver and log, is wrapped here, and
the watchdog is that of `instrumented_watchdog.py`. The acts go into a file of FOLDER. `premises.py` says which there
are.
"""
from __future__ import annotations

import os
import signal
import sys
from collections.abc import Callable, Mapping, Sequence
from contextlib import suppress
from functools import partial
from pathlib import Path
from typing import Any

from bully import command, driver, member, worker
from bully.commands import run
from bully.core import Ask, Begin, Core, CoreOpening, Live, Promise, Request, Seen, Session, Step, StoreAnswer
from bully.epochs import Opening, Token
from bully.faults import BullyError
from bully.shared_log import Holder, Log, Precondition, Snapshot, Unanswered
from bully.values import Line

from .instrumentation import FOLDER, OF, Pen, living_below, moment

WATCHDOG = str(Path(__file__).with_name('instrumented_watchdog.py'))
CALLS = {
    Request.ACQUIRE: 'acquire', Request.RENEW: 'renew', Request.RELEASE: 'release', Request.SNAPSHOT: 'snapshot',
    Request.PROMISE: 'promise', Request.APPEND: 'append', Request.ROLL_OVER: 'roll_over', Request.FOLLOW: 'opening',
}  # fmt: skip
UNANSWERED, FAILED = 'unanswered', 'failed'
Told = dict[str, Any]
pens: list[Pen] = []  # the one of this process


def note(kind: str, at: int, **more: object) -> None:
    pens[0].note(kind, at, **more)


def shown_opening(opening: Opening | CoreOpening) -> Told:
    """An opening, as an act has it: that of the store has names, and that for a member the number of its node."""
    more: Told = {'names': opening.names} if isinstance(opening, Opening) else {'node': opening.node}
    return {'epoch': opening.epoch, 'header': str(opening.header), 'is_cooperative': opening.is_cooperative, **more}


def shown_lease(session: Session, promise: Promise, kept: Sequence[int]) -> list[object]:
    return [session.process, session.number, promise.epoch, promise.offset, list(kept)]


def shown_holders(holders: Mapping[str, Holder]) -> Told:
    return {name: shown_lease(*holder) for name, holder in holders.items()}


# ---- Calls on the rules


class InstrumentedCore(Core):
    """The rules of a member. Each call that changes them is written down, with what they are then."""

    def __init__(self, opening: CoreOpening, process: int, ttl: int) -> None:
        super().__init__(opening, process, ttl)
        about = shown_opening(opening)
        note('starts', moment(), process=process, name=InstrumentedMember.acts_for, ttl=ttl, **about, **self._now())

    def _now(self) -> Told:
        """The epoch, the end of its log, until when the lease is sure, and the number of the session that is live."""
        live = self.session
        number = live.session.number if isinstance(live, Live) else None
        return {'in': self.epoch, 'end': self.offset, 'sure': self.sure_until, 'live': number}

    def _about(self, step: Step) -> Told:
        """What a step is, and what a driver reads for it."""
        if isinstance(step, Begin):
            owned = self.owned()
            return {'token': Token.of(self.epoch, step.token), 'owned': owned.partitions if owned is not None else ()}
        if not isinstance(step, Ask):
            return {}
        session = [step.session.process, step.session.number]
        about = {'request': CALLS[step.request], 'session': session, 'offset': step.offset, 'works': self.works()}
        if step.request in (Request.APPEND, Request.ROLL_OVER):
            nodes = range(1, self.nodes + 1)
            about.update(affected=[node for node in nodes if self.is_affected(node)], is_ending=self.ending is not None)
        if step.request is Request.APPEND:
            with suppress(BullyError):  # then the driver gets the same
                about.update(rows=self.rebalance())
        return about

    def next(self, now: int) -> Step:
        step = super().next(now)
        note('steps', moment(), now=now, step=type(step).__name__, **self._about(step), **self._now())
        return step

    def answered(self, now: int, answer: StoreAnswer) -> None:
        at = moment()
        super().answered(now, answer)
        note('answered', at, now=now, answer=answer.value, **self._now())

    def learn(self, rows: Sequence[Line]) -> None:
        at, told = moment(), {'epoch': self.epoch, 'offset': self.offset, 'rows': list(map(str, rows))}
        super().learn(rows)
        note('learned', at, **told, **self._now())

    def snapshot_read(self, now: int, seen: Seen) -> None:
        at = moment()
        super().snapshot_read(now, seen)
        leases = {lease.node: shown_lease(lease.session, lease.promise, lease.kept) for lease in seen.leases}
        note('shown', at, now=now, epoch=seen.epoch, leases=leases, **self._now())

    def followed(self, now: int, opening: CoreOpening | None) -> None:
        at = moment()
        super().followed(now, opening)
        note('followed', at, now=now, opening=opening and shown_opening(opening), **self._now())

    def stopped(self) -> None:
        at, there = moment(), living_below(os.getpid())
        super().stopped()
        note('stopped', at, there=there, **self._now())

    def stopped_on(self, partition: int) -> None:
        at, there = moment(), living_below(os.getpid())
        super().stopped_on(partition)
        note('stopped_on', at, partition=partition, there=there, **self._now())


# ---- Calls of the log


def of_session(name: str, session: Session, promise: Promise | None = None) -> Told:
    """A call for a session of that node, and for a promise of it."""
    more: Told = {} if promise is None else {'epoch': promise.epoch, 'offset': promise.offset}
    return {'name': name, 'session': [session.process, session.number], **more}


def shown_known(known: Precondition | None) -> Told | None:
    if known is None:
        return None
    return {'affected': sorted(known.affected), 'holders': shown_holders(known.holders), 'revision': known.revision}


def of_change(epoch: int, offset: int, known: Precondition | None, **more: object) -> Told:
    """A call that appends, or ends the epoch."""
    return {'epoch': epoch, 'offset': offset, 'known': shown_known(known), **more}


ABOUT: dict[str, Callable[..., Told]] = {  # what is written down of a call, by its arguments
    'acquire': lambda name, session, promise, ttl: of_session(name, session, promise),
    'renew': lambda name, session, ttl: of_session(name, session),
    'release': of_session,
    'promise': lambda name, session, promise, kept=(): {**of_session(name, session, promise), 'works': kept},
    'append': lambda epoch, offset, rows, known=None: of_change(epoch, offset, known, rows=list(rows)),
    'roll_over': lambda epoch, offset, opening, known=None: of_change(epoch, offset, known, names=opening.names),
    'snapshot': lambda epoch, offset, promise_of=None: {'epoch': epoch, 'offset': offset},
    'opening': lambda epoch=None: {},
}


def shown_answer(answer: object) -> object:
    """What a call has returned: a release returns nothing once it is done."""
    if isinstance(answer, Opening):
        return shown_opening(answer)
    if not isinstance(answer, Snapshot):
        return answer is None or answer
    told: Told = {'rows': list(answer.rows), 'holders': shown_holders(answer.holders), 'revision': answer.revision}
    return {'epoch': answer.epoch, 'is_paused': answer.maintenance.is_paused, **told}


class InstrumentedLog:
    """A log. Of the calls that requests of the rules are, each is written down as `asks`, and what came of it as
    `gave`."""

    def __init__(self, log: Log) -> None:
        self._log = log

    def __getattr__(self, name: str) -> object:
        found = getattr(self._log, name)
        return partial(self._call, name, found) if name in ABOUT else found

    def _call(self, name: str, call: Callable[..., object], *arguments: object) -> object:
        result: object = FAILED
        note('asks', moment(), call=name, **ABOUT[name](*arguments))
        try:
            answer = call(*arguments)
            result = shown_answer(answer)
        except Unanswered:
            result = UNANSWERED
            raise
        finally:
            note('gave', moment(), call=name, result=result)
        return answer


# ---- The command


class InstrumentedMember(member.Member):
    """A member over such a log."""

    acts_for = ''  # the name of its node

    def __init__(self, log: Log, node: int | str, *more: Any, **named: Any) -> None:
        InstrumentedMember.acts_for = str(node)
        super().__init__(InstrumentedLog(log), node, *more, **named)  # type: ignore[arg-type]


def main() -> int:
    signal.pthread_sigmask(signal.SIG_BLOCK, signal.valid_signals())  # as `bully_member` does
    os.environ[FOLDER], os.environ[OF] = sys.argv[1], f'{os.getpid()}-{moment()}'
    pens.append(Pen())
    worker.WATCHDOG = WATCHDOG
    setattr(driver, 'Core', InstrumentedCore)
    setattr(run, 'Member', InstrumentedMember)
    return command.main(sys.argv[2:])


if __name__ == '__main__':
    sys.exit(main())
