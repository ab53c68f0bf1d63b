"""`bully-member repair`."""
from __future__ import annotations

import argparse
import contextlib

from ..command_options import Command, Option
from ..exit_statuses import FAILED, OK
from ..outputs import say_error
from ..repair import damage_of, repair as cut, takes_back
from ..store_options import store_of


def repair(options: argparse.Namespace) -> int:
    """Prints what is damaged in a log, and the rows to cut. Cuts them if --cut is their offset."""
    with contextlib.closing(store_of(options).open()) as log:
        damage, epoch = damage_of(log), log.epochs()[-1]
        if damage is None and takes_back(log):
            print(f'epoch {epoch}: the requested settings or the maintenance could not be read; both are taken back')
        elif damage is None:
            print(f'epoch {epoch}: nothing is damaged')
        else:
            print(damage.summary, *map(repr, damage.rows), sep='\n')
            if options.cut != damage.offset or not cut(log, damage):
                how = f'--cut {damage.offset} cuts these rows, once all members have ended'
                why = 'somebody holds a lease' if options.cut == damage.offset else how
                say_error(f'nothing is cut: {why}')
                return FAILED
    return OK


OPTIONS = (
    Option('--cut', 'cut the damaged rows from this offset on; all members must have stopped', 'OFFSET', type=int),
)
COMMANDS = {'repair': Command(repair, OPTIONS)}
