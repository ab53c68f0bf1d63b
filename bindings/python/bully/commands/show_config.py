"""`bully-member show-config`."""
from __future__ import annotations

import argparse
import contextlib
import io
import json
import sys

from ..command_options import Command, Option
from ..config_file import toml_of
from ..exit_statuses import OK
from ..outputs import is_utf8
from ..shared_log import found_in
from ..store_options import store_of


def show_config(options: argparse.Namespace) -> int:
    """Prints the group's settings, as `init` and `resize` take them, or as JSON."""
    with contextlib.closing(store_of(options).open(reads=True)) as log:
        opening, requested = log.opening(), found_in(log).requested
    settings, mode = opening.settings, opening.mode
    if options.json:
        about = {'epoch': opening.epoch, 'mode': mode, 'ttl': opening.ttl, 'requested': requested is not None}
        print(json.dumps({**about, **settings.document()}, ensure_ascii=not is_utf8()))
        return OK
    if isinstance(sys.stdout, io.TextIOWrapper):
        sys.stdout.reconfigure(encoding='utf-8')  # as TOML must be
    ttl = 'each member has its own ttl' if opening.ttl is None else f'ttl {opening.ttl:g}'
    print(f'# epoch {opening.epoch}, {mode}, {ttl}')
    if requested is not None:
        print(f'# other settings are requested for epoch {requested.epoch}')
    sys.stdout.write(toml_of(settings))
    return OK


COMMANDS = {'show-config': Command(show_config, (Option('--json', 'write JSON, for programs'),))}
