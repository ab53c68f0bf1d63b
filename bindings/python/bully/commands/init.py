"""`bully-member init`."""
from __future__ import annotations

import argparse
import contextlib

from ..command_options import Command, Option, count_option, seconds_option
from ..config_file import settings_in
from ..epochs import COOPERATIVE, EAGER, FIRST, LATEST, Opening
from ..exit_statuses import OK
from ..member import OtherGroup, is_known
from ..settings import Settings
from ..shared_log import LogExists, NoLog
from ..store_options import BadWords, Store, check_ttl, store_of


def init(options: argparse.Namespace) -> int:
    """Makes the log; or with --if-missing does nothing if there already is one, which must fit the options."""
    settings = settings_in(options.config)
    if options.epoch > LATEST:
        raise BadWords(f'--epoch is {options.epoch}, and may be {LATEST} at most')
    store = store_of(options)
    if options.if_missing and is_there(store, settings, options):
        return OK
    names, is_cooperative = settings.names, options.rebalance == COOPERATIVE
    header, epoch, ttl = settings.setup.header(), options.epoch, options.ttl
    opening = Opening.first(header, names, epoch=epoch, ttl=ttl, is_cooperative=is_cooperative)
    try:
        store.create(opening).close()
    except LogExists:  # maybe somebody else has just made it
        if not options.if_missing or not is_there(store, settings, options):
            raise
    return OK


def is_there(store: Store, settings: Settings, options: argparse.Namespace) -> bool:
    """Whether the log is there. Raises OtherGroup if its group has never had these settings, nor a request for them,
    or its epoch is earlier than --epoch; BadWords if it has another ttl, or rebalances in the other way."""
    try:
        log = store.open(reads=True)
    except NoLog:
        return False
    with contextlib.closing(log):
        opening = log.opening()
        if not is_known(log, settings):
            has = f'{opening.header} of {", ".join(opening.names)}'
            raise OtherGroup(f'the log already exists; its group has {has}, and has never had {options.config}')
        if opening.epoch < options.epoch:
            raise OtherGroup(f'the log already exists, in epoch {opening.epoch}, and not in {options.epoch} or later')
        check_ttl(opening.ttl, options.ttl)
        if options.rebalance not in (None, opening.mode):
            raise BadWords(f'--rebalance is {options.rebalance}, and the log is {opening.mode}')
    return True


OPTIONS = (
    Option('--config', 'the configuration of the group', 'FILE', required=True),
    seconds_option(
        '--ttl', 'how long a lease lasts without a renewal, for all members (default: each member has its own)'
    ),
    Option(
        '--rebalance',
        'what a change stops: all work (eager), or only the work that moves (cooperative) (default: eager)',
        choices=(EAGER, COOPERATIVE),
    ),
    count_option(
        '--epoch',
        'NUMBER',
        'the number of the first epoch: higher than all epochs of an earlier log, if there was one',
        FIRST,
    ),
    Option('--group-access', 'let the group of the folder use the file, too'),
    Option('--if-missing', 'do nothing if the log of this group is already there'),
)
COMMANDS = {'init': Command(init, OPTIONS)}
