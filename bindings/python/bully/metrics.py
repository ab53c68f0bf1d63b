"""The metrics of a member, for Prometheus."""
from __future__ import annotations

from collections.abc import Callable
from typing import NamedTuple

from .values import Status
from .view import GroupView, NodeView
from .worker import Workers


class GroupReading(NamedTuple):
    """The group as it was last read, if it ever was; how many seconds ago that was; and whether the store answered
    the last read."""

    group: GroupView | None
    age: float
    is_answered: bool


def labels(name: str) -> str:
    """The label of a node, for Prometheus."""
    escaped = name.replace('\\', r'\\').replace('"', r'\"').replace('\n', r'\n')
    return f'{{node="{escaped}"}}'


class Metrics:
    """The lines of metrics for Prometheus."""

    def __init__(self) -> None:
        self.lines: list[str] = []

    def add(self, metric: str, about: str, values: list[tuple[str, float]], kind: str = 'gauge') -> None:
        """A metric, with its values by label."""
        self.lines.extend([f'# HELP {metric} {about}', f'# TYPE {metric} {kind}'])
        for node, value in values:
            self.lines.append(f'{metric}{node} {value:{"d" if isinstance(value, int) else ".3f"}}')


def metrics_of(reading: GroupReading, name: str, sure_seconds: float, workers: Workers | None) -> str:
    """The metrics of the member, and of the group as it was last read, for Prometheus."""
    metrics, mine = Metrics(), labels(name)
    add = metrics.add
    add('bully_store_up', 'Whether the store answered the last read.', [('', reading.is_answered)])
    add('bully_sure_seconds', 'For how many seconds the ownership of this member is sure.', [(mine, sure_seconds)])
    if workers is not None:
        stopping, wait = [(mine, workers.stopping_seconds)], [(mine, workers.backoff_seconds)]
        add('bully_stopping_seconds', 'How many seconds ago its worker was told to stop, if it has not.', stopping)
        add('bully_worker_backoff_seconds', 'For how many seconds its worker still backs off after a failure.', wait)
        about = 'How often the watchdog killed a worker because the lease was not sure any more.'
        add('bully_work_killed_total', about, [(mine, workers.killed)], 'counter')
    if reading.group is not None:
        add('bully_group_age_seconds', 'How many seconds ago the metrics of the group were read.', [('', reading.age)])
        add_group(add, reading.group)
    return '\n'.join(metrics.lines) + '\n'


def add_group(add: Callable[..., None], group: GroupView) -> None:
    """The metrics of the group, for Prometheus."""

    def nodes(value: Callable[[NodeView], float]) -> list[tuple[str, float]]:
        return [(labels(node.name), value(node)) for node in group.nodes]

    names = dict.fromkeys([*(node.name for node in group.nodes), *group.waits])
    add('bully_epoch', 'The current epoch.', [('', group.epoch)])
    add('bully_events_total', 'The number of events in the current epoch.', [('', group.events)], 'counter')
    add('bully_token', 'The token of the last plan; 0 if there is none.', [('', group.token or 0)])
    add('bully_node_live', 'Whether the node is live: a session holds its lease.', nodes(lambda node: node.is_live))
    add('bully_drained', 'Whether the node is drained.', nodes(lambda node: node.is_drained))
    fails, gave_up = nodes(lambda node: node.is_failing), nodes(lambda node: node.gave_up)
    add('bully_worker_failing', 'Whether the worker of the node fails, and the node owns something or gave up.', fails)
    add('bully_gave_up', 'Whether the node gave up what it owned because its worker fails.', gave_up)
    add('bully_paused', 'Whether the group is paused.', [('', group.is_paused)])
    add('bully_cooperative', 'Whether a change stops only the work that moves.', [('', group.is_cooperative)])
    add('bully_stable', 'Whether nothing in the group has to change.', [('', group.is_stable)])
    add('bully_node_normal', 'Whether the node is Normal.', nodes(lambda node: node.status is Status.NORMAL))
    add('bully_node_leads', 'Whether the node is the coordinator.', nodes(lambda node: node.name == group.coordinator))
    add('bully_node_partitions', 'How many partitions the node owns.', nodes(lambda node: len(node.partitions)))
    waits = [(labels(each), group.waits.get(each, 0.0)) for each in names]
    add('bully_idle_behind_seconds', 'For how many seconds a change has waited for the node to stop its work.', waits)
    stops = [(labels(each), len(group.stops.get(each, ()))) for each in names]
    add('bully_node_stops', 'On how many partitions the node must stop its work for a change.', stops)
    add('bully_partitions_free', 'How many partitions nobody may work on now.', [('', group.owners.count(None))])
    add(
        'bully_partitions_moving', 'How many partitions get another owner by the change under way.', [('', group.moves)]
    )
