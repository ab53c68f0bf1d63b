"""Rebalances, judged apart from the library that makes them: after random lawful logs, and after each prefix of a
trace."""
from __future__ import annotations

import random
from collections.abc import Callable, Iterator, Sequence
from dataclasses import dataclass, replace
from pathlib import Path
from typing import Optional

from bully import BullyError, Owned, Replica, Setup, Status, check, plan_table
from bully.group import setup_of
from .simulated_store import table_of

REBALANCE = 11  # times as many rows as nodes: a rebalance has no more

# Makes the rows by which a group becomes stable: of the header of its log, its rows, the live nodes, and an old table.
Rebalancer = Callable[[str, Sequence[str], Sequence[int], Optional[Sequence[int]]], list[str]]


@dataclass(frozen=True)
class Case:
    """A log, the nodes that are live after it, and the last table of the epoch before, if there is one."""

    name: str
    header: str
    rows: tuple[str, ...]
    live: tuple[int, ...]
    old: tuple[int, ...] | None = None

    def __str__(self) -> str:
        return f'{self.name}: {self.header} after {len(self.rows)} rows, with {self.live} and {self.old}'


def rebalance(header: str, rows: Sequence[str], live: Sequence[int], old: Sequence[int] | None = None) -> list[str]:
    """The rebalance of the library."""
    with Replica(header) as replica:
        replica.learn(rows)
        return replica.rebalance(live, old)


# ---- Judging, by docs/REBALANCING.md.


def is_stable(replica: Replica, live: Sequence[int], promised: int) -> bool:
    """Whether the live nodes, and no others, are up; all are Normal under the highest of them; and the last plan, which
    comes after the offset that was promised, is over no others."""
    states = [replica.state(node) for node in range(1, replica.nodes + 1)]
    up = {state.node for state in states if state.status is not Status.DOWN}
    if not up or up != set(live):
        return up == set(live)
    are_normal = all(
        state.status is Status.NORMAL and state.coordinator == max(up) for state in states if state.node in up
    )
    return are_normal and promised < (replica.token or 0) and set(replica.last_table or ()) <= up


def owned(replica: Replica, node: int, promised: int) -> Owned | None:
    """By which token the node may work after the offset that was promised, and on which partitions, if on any."""
    token, table = replica.token or 0, replica.last_table or ()
    partitions = tuple(partition for partition, owner in enumerate(table) if owner == node)
    may_work = replica.state(node).status is Status.NORMAL and promised < token
    return Owned(token, partitions) if may_work and partitions else None


def wrong_with(case: Case, rebalanced: Sequence[str]) -> str | None:
    """What is wrong with these rows as a rebalance, if anything is."""
    setup = setup_of(case.header)
    verdict = check('\n'.join([case.header, *case.rows, *rebalanced, '']))
    if not verdict.is_lawful:
        return f'it is {verdict}'
    if len(rebalanced) > REBALANCE * setup.nodes:
        return f'it has {len(rebalanced)} rows'
    with Replica(case.header) as replica:
        replica.learn(case.rows)
        events, before = replica.events, replica.last_table or case.old
        replica.learn(rebalanced)
        if not is_stable(replica, case.live, events):
            return f'the group is not stable after {rebalanced}'
    plans = [table_of(row) for row in rebalanced if row.startswith('plan,')]
    if len(plans) != bool(case.live):
        return f'there are {len(plans)} plans'
    if plans and moves(plans[0], before) != fewest(setup, case.live, before):
        return f'{moves(plans[0], before)} partitions move, and {fewest(setup, case.live, before)} would do'
    return None


def moves(table: Sequence[int], before: Sequence[int] | None) -> int:
    """How many partitions change their owner."""
    return sum(owner != old for owner, old in zip(table, before)) if before else len(table)


def fewest(setup: Setup, members: Sequence[int], before: Sequence[int] | None) -> int:
    """How many must change their owner, as the library plans. It knows no owner that is gone: here such an owner is one
    more node, which is no member."""
    weights = (*(setup.weights or (1,) * setup.nodes), 1)
    more = replace(setup, nodes=setup.nodes + 1, weights=weights)
    return plan_table(more, members, before and [owner or more.nodes for owner in before]).moves


def try_case(case: Case, rebalancer: Rebalancer = rebalance) -> str | None:
    """What is wrong with the rows that a rebalancer makes for the case, if anything is."""
    wrong = wrong_with(case, rebalancer(case.header, case.rows, case.live, case.old))
    return None if wrong is None else f'{case}: {wrong}'


def wrong_answer(case: Case) -> str | None:
    """What the library wrongly says, after the log and after each part of its rebalance: whether the group is stable,
    or what its nodes own."""
    choice = random.Random(len(case.rows))
    rebalanced = rebalance(case.header, case.rows, case.live, case.old)
    with Replica(case.header) as replica:
        replica.learn(case.rows)
        for end in (0, len(rebalanced) // 2, len(rebalanced)):
            replica.learn(rebalanced[replica.rows - len(case.rows) : end])
            live = choice.choice([case.live, random_live(choice, replica.nodes)])
            promised = choice.choice([0, len(case.rows), choice.randint(0, replica.rows), replica.rows])
            nodes = range(1, replica.nodes + 1)
            told = replica.is_stable(live, promised), [replica.owned(node, promised) for node in nodes]
            if told != (is_stable(replica, live, promised), [owned(replica, node, promised) for node in nodes]):
                return f'{case}: with {live} after {replica.rows} rows, of which {promised} were promised: {told}'
    return None


# ---- Cases.


def random_cases(count: int) -> Iterator[Case]:
    """Logs of whatever may come next, one for each seed."""
    for seed in range(1, count + 1):
        choice = random.Random(seed)
        nodes = choice.randint(1, 9)
        weights = tuple(choice.randint(1, 3) for _ in range(nodes))
        setup = Setup(nodes, choice.randint(1, 20), weights=weights, keeps=choice.random() < 0.5)
        with Replica(setup.header()) as replica:
            rows: list[str] = []
            for _ in range(choice.choice([0, 1, 1, 1]) * choice.randint(0, 40 * nodes)):
                rows += random_row(choice, replica, choice.randint(1, nodes))
        yield Case(f'seed {seed}', setup.header(), tuple(rows), random_live(choice, nodes), random_old(choice, setup))


def random_row(choice: random.Random, replica: Replica, node: int) -> list[str]:
    """A row that may come next, if one was found; the replica has learned it."""
    kinds: list[Callable[[int], str | None]] = [replica.next] * 12
    kinds += [replica.timeout, replica.check, replica.crash, replica.recover, replica.recover, replica.drop]
    try:
        row = choice.choice(kinds)(node)
    except BullyError:
        return []
    replica.learn([row] if row else [])
    return [row] if row else []


def random_live(choice: random.Random, nodes: int) -> tuple[int, ...]:
    """None at times."""
    count = choice.choice([0, nodes, *[choice.randint(1, nodes)] * 6])
    return tuple(sorted(choice.sample(range(1, nodes + 1), count)))


def random_old(choice: random.Random, setup: Setup) -> tuple[int, ...] | None:
    """None, or a table with owners that are gone."""
    if choice.random() < 0.5:
        return None
    return tuple(choice.randint(0, setup.nodes) for _ in range(setup.partitions))


def prefix_cases(traces: Sequence[Path], sets: int) -> Iterator[Case]:
    """Each prefix of a trace as far as it is lawful, with no live node, and with so many random sets of live nodes."""
    for trace in sorted(traces):
        header, *rows = trace.read_text().splitlines()
        setup = setup_of(header)
        for end in range(len(rows) + 1):
            if not check('\n'.join([header, *rows[:end], ''])).is_lawful:
                break
            choice = random.Random(end)
            for number in range(sets + 1):
                live = random_live(choice, setup.nodes) if number else ()
                yield Case(f'{trace.name}, {number}', header, tuple(rows[:end]), live, random_old(choice, setup))


# ---- Rebalancers that break a rule.


def changed(change: Callable[[list[str], Case], list[str]]) -> Rebalancer:
    """The rebalance of the library, with its rows changed."""

    def rebalancer(
        header: str, rows: Sequence[str], live: Sequence[int], old: Sequence[int] | None = None
    ) -> list[str]:
        case = Case('', header, tuple(rows), tuple(live), None if old is None else tuple(old))
        return change(rebalance(header, rows, live, old), case)

    return rebalancer


def without_a_crash(rebalanced: list[str], case: Case) -> list[str]:
    crashes = [row for row in rebalanced if row.startswith('crash,')]
    return [row for row in rebalanced if row not in crashes[:1]]


def without_its_last_move(rebalanced: list[str], case: Case) -> list[str]:
    return rebalanced[:-1]


def with_more_crashes(rebalanced: list[str], case: Case) -> list[str]:
    """The group becomes stable, in more rows than a rebalance may have."""
    if not case.live:
        return rebalanced
    often = REBALANCE * setup_of(case.header).nodes
    again = [f'recover,{max(case.live)}', f'crash,{max(case.live)}'] * often
    place = rebalanced.index(f'recover,{max(case.live)}')
    return rebalanced[:place] + again + rebalanced[place:]


def without_old_tables(rebalanced: list[str], case: Case) -> list[str]:
    """It plans as if there were no table before."""
    if not case.live:
        return rebalanced
    table = plan_table(setup_of(case.header), case.live).owners
    return [
        f'plan,{max(case.live)},{" ".join(map(str, table))}' if row.startswith('plan,') else row for row in rebalanced
    ]


def with_an_owner_that_is_gone(rebalanced: list[str], case: Case) -> list[str]:
    """It plans over all nodes, live or not."""
    if not case.live:
        return rebalanced
    setup = setup_of(case.header)
    table = plan_table(setup, range(1, setup.nodes + 1)).owners
    return [
        f'plan,{max(case.live)},{" ".join(map(str, table))}' if row.startswith('plan,') else row for row in rebalanced
    ]


def among_others(header: str, rows: Sequence[str], live: Sequence[int], old: Sequence[int] | None = None) -> list[str]:
    """It takes the nodes that are up for the live ones."""
    with Replica(header) as replica:
        replica.learn(rows)
        up = [node for node in range(1, replica.nodes + 1) if replica.state(node).status is not Status.DOWN]
    return rebalance(header, rows, up, old)


BROKEN: dict[str, Rebalancer] = {
    'leaves out a crash': changed(without_a_crash), 'leaves out the last move': changed(without_its_last_move),
    'takes too many rows': changed(with_more_crashes), 'forgets the old table': changed(without_old_tables),
    'plans over nodes that are gone': changed(with_an_owner_that_is_gone),
    'rebalances among the nodes that are up': among_others,
}  # fmt: skip
