"""Workers and watchdogs with a bug, in cooperative groups of the simulation: each must be found."""
from __future__ import annotations

from functools import partial

from bully.epochs import Token
from .over_memory import OverMemory
from .stabilizing import Mode
from .trouble import Trouble
from .working import KINDS, Each, SimulatedProcess, Talk, Whole, Worker

NEVER = 2**63


class CountsAtOnce(Talk):
    def stop(self, token: Token, rest: frozenset[int], stopped: frozenset[int]) -> None:
        super().stop(token, rest, stopped)
        self.member.soon(0, partial(self.end, self.stops.pop()))

    def stopped(self, process: SimulatedProcess) -> None:
        pass


class ReportsTheRest(Whole):
    def stop(self, token: Token, rest: frozenset[int], stopped: frozenset[int]) -> None:
        super().stop(token, rest, stopped)
        self.owed |= rest


class StartsAllTheSame(Whole):
    def stop(self, token: Token, rest: frozenset[int], stopped: frozenset[int]) -> None:
        before, is_starting = self.wanted, self.process is not None and self.process.is_told
        super().stop(token, rest, stopped)
        self.wanted = before if is_starting else self.wanted


class HearsOfTheProcessBefore(Whole):
    def gone(self, process: SimulatedProcess) -> None:
        super().gone(self.process or process)


class EndsAll(Each):
    def gone(self, process: SimulatedProcess) -> None:
        if process in self.running.values():
            ended, self.running = frozenset(self.running), {}
            self.member.ended(ended)


class AnswersFirst(SimulatedProcess):
    def hear_stop(self, partitions: frozenset[int]) -> None:
        self.stops.append(partitions)
        self.answer()


class Answers(Talk):
    process_type = AnswersFirst


class GoesOn(SimulatedProcess):
    def next_unit(self) -> None:
        until, self.worker.until = self.worker.until, NEVER
        super().next_unit()
        self.worker.until = until


class KillsNobody(Each):
    process_type = GoesOn


BROKEN: dict[str, type[Worker]] = {
    'counts as stopped before it is': CountsAtOnce, 'reports the end of what goes on, too': ReportsTheRest,
    'starts all the same though that was called off': StartsAllTheSame,
    'takes what is reported of a process for the next one': HearsOfTheProcessBefore,
    'reports the end of all processes when one ends': EndsAll, 'answers a stop before its unit is over': Answers,
    'is not killed when its lease is not sure any more': KillsNobody,
}  # fmt: skip


class OfBroken(OverMemory):
    """A group whose workers have this bug."""

    def __init__(self, seed: int, worker: type[Worker]) -> None:
        kind = next(kind for kind, right in KINDS.items() if issubclass(worker, right))
        super().__init__(seed, Trouble, Mode(True, kind))
        self.kind = worker


def found(worker: type[Worker], most: int) -> str | None:
    """The first seed that shows the bug, and how; none of so many if it is None."""
    for seed in range(1, most + 1):
        wrong = OfBroken(seed, worker).tried()
        if wrong is not None:
            return f'seed {seed}: {wrong}'
    return None
