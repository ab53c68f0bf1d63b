"""`bully-member status`."""
from __future__ import annotations

import argparse
import contextlib
import dataclasses
import json
import time
from collections.abc import Iterable

from ..clocks import seconds_of_boot
from ..command_options import Command, Option, seconds
from ..display import shown_name
from ..exit_statuses import FAILED, OK
from ..outputs import is_utf8, say_error
from ..shared_log import Unanswered
from ..store_options import store_of, warn_of_readers
from ..view import Doing, GroupView, LogView

STATUS_WAIT = 1.0  # the longest wait for nodes that aren't idle, in seconds
WATCH = 1.0  # seconds from one look of `--watch` to the next


def status(options: argparse.Namespace) -> int:
    """Prints the state of the group. The exit status says whether the group is well."""
    store = store_of(options)
    warn_of_readers(store)
    with contextlib.closing(LogView(store.open(reads=True))) as view:
        if options.watch is not None:
            with contextlib.suppress(KeyboardInterrupt):
                watch(view, options.watch, options.json)
            return OK
        end, shown = seconds_of_boot() + STATUS_WAIT, view.show()
        while shown.is_changing and seconds_of_boot() < end:
            time.sleep(STATUS_WAIT / 10)
            shown = view.show()
    print(output_of(shown, options.json))
    return OK if shown.is_well else FAILED


def watch(view: LogView, seconds: float, is_json: bool) -> None:
    """Prints the group whenever it has changed, and looks every so many seconds. For how long a change has waited isn't
    a change. A log that doesn't answer is reported once, until it answers again."""
    last: GroupView | None = None
    unanswered = ''
    while True:
        try:
            shown = view.show()
        except Unanswered as fault:
            if str(fault) != unanswered:
                say_error(str(fault))
            unanswered = str(fault)
        else:
            unanswered = ''
            state = dataclasses.replace(shown, waits=dict.fromkeys(shown.waits, 0.0))
            if state != last:
                print(('' if is_json else time.strftime('%H:%M:%S ')) + output_of(shown, is_json), flush=True)
            last = state
        time.sleep(seconds)


def output_of(group: GroupView, is_json: bool) -> str:
    """The group as JSON, or as text for people."""
    return json.dumps(group.document(), ensure_ascii=not is_utf8()) if is_json else text_of(group)


def text_of(group: GroupView) -> str:
    """The group as text for people."""
    about = f'epoch {group.epoch}, events {group.events}, token {group.token or "-"}'
    about = f'{about}, coordinator {shown_name(group.coordinator)}, {group.mode}{group.more_text}'
    rows: list[tuple[str, ...]] = [('node', 'status', 'live', 'coordinator', 'partitions')]
    for node in group.nodes:
        name, coordinator = shown_name(node.name), shown_name(node.coordinator)
        rows.append((name, str(node.status), node.live_text, coordinator, words_of(node.partitions)))
    return '\n'.join([about, *lines_of(rows), *lines_of(unsettled(group))])


def words_of(partitions: Iterable[int]) -> str:
    """Partitions, for people."""
    return ' '.join(map(str, partitions)) or '-'


def unsettled(group: GroupView) -> list[tuple[str, ...]]:
    """A table of the partitions on which nobody may work, or whose work stops for a change; nothing if there are
    none. Those with the same owners are in one row."""
    same: dict[tuple[str, ...], list[int]] = {}
    for partition, each in enumerate(group.partitions):
        if each.doing is not Doing.WORKING:
            row = each.doing.value, shown_name(each.owner), shown_name(each.coming)
            same.setdefault(row, []).append(partition)
    rows = [(*row, words_of(partitions)) for row, partitions in same.items()]
    return [('state', 'owner', 'then', 'partitions'), *rows] if rows else []


def lines_of(rows: list[tuple[str, ...]]) -> list[str]:
    """The rows of a table, as lines with columns of one width each."""
    widths = [max(map(len, column)) for column in zip(*rows)]
    return ['  '.join(word.ljust(width) for word, width in zip(row, widths)).rstrip() for row in rows]


OPTIONS = (
    Option('--json', 'write JSON, for programs'),
    Option(
        '--watch',
        f'show it again whenever it changes, until ^C; look every SECONDS (default: {WATCH:g})',
        'SECONDS',
        type=seconds,
        nargs='?',
        const=WATCH,
    ),
)
COMMANDS = {'status': Command(status, OPTIONS)}
