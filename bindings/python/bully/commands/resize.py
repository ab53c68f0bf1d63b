"""`bully-member resize` and `bully-member switchover`, which start a new epoch."""
from __future__ import annotations

import argparse
import contextlib

from .. import operations
from ..command_options import Command, OneOf, Option, seconds_option
from ..config_file import settings_in
from ..display import shown_name
from ..exit_statuses import OK
from ..settings import ConfigFault
from ..shared_log import Log, found_in
from ..store_options import store_of


def resize(options: argparse.Namespace) -> int:
    """Gives the group other settings."""
    settings = None if options.cancel else settings_in(options.config)
    with contextlib.closing(store_of(options).open()) as log:
        if settings is None:
            return cancel(log)
        # (another such command may hold a lease as an unknown process, also one that was killed, up to its ttl)
        of_group = log.opening().names
        live = [name for name in found_in(log).sessions if name in of_group]
        if live and not set(live) & set(settings.names) and not options.all_new:
            names = ', '.join(live)
            why = f'it has none of the nodes that are live ({names}), so all would end; --all-new allows it'
            raise ConfigFault(f'{options.config}: {why}')
        opening = operations.resize(log, settings, options.seconds)
    print(f'epoch {opening.epoch}: {settings.setup.nodes} nodes, {settings.setup.partitions} partitions')
    return OK


def cancel(log: Log) -> int:
    """Takes back the requested settings."""
    epoch = log.epochs()[-1]
    log.cancel(epoch)
    print(f'epoch {epoch}: no other settings are requested')
    return OK


def switchover(options: argparse.Namespace) -> int:
    """Makes another node the coordinator."""
    node = options.node or options.named
    with contextlib.closing(store_of(options).open()) as log:
        opening = operations.lead(log, node, options.seconds)
    print(f'epoch {opening.epoch}: {shown_name(node)} leads')
    return OK


SECONDS = seconds_option('--seconds', 'how long to wait until the new epoch has started', 60.0)
OF_RESIZE = (
    SECONDS,
    OneOf(
        Option('--config', 'the new configuration of the group', 'FILE'),
        Option('--cancel', 'cancel the request to resize'),
        is_required=True,
    ),
    Option('--all-new', 'allow a configuration that keeps no current member; all of them stop'),
)
OF_SWITCHOVER = (
    SECONDS,
    OneOf(
        Option('node', 'the name of the new coordinator', 'NODE', nargs='?'),
        Option('--node', '', 'NODE', dest='named'),  # of an earlier version
        is_required=True,
    ),
)
COMMANDS = {'resize': Command(resize, OF_RESIZE), 'switchover': Command(switchover, OF_SWITCHOVER)}
