"""Runs your worker, in any language, beside a member: the process that acts for one node of a group.

    bully-member init --config group.toml --log sqlite:group.db [--ttl 5] [--rebalance cooperative] [--epoch 1]
                      [--group-access] [--if-missing]
    bully-member run --node b --log sqlite:group.db [--config group.toml] [--ttl 5] [--listen 8081] -- WORKER ARGS..
    bully-member status --log sqlite:group.db [--json] [--watch [SECONDS]]
    bully-member show-config --log sqlite:group.db [--json]
    bully-member history --log sqlite:group.db [--epoch 1] [--times] | bully check
    bully-member resize --config new.toml --log sqlite:group.db [--seconds 60]
    bully-member resize --cancel --log sqlite:group.db
    bully-member switchover b --log sqlite:group.db
    bully-member drain b --log sqlite:group.db [--all]
    bully-member undrain b --log sqlite:group.db
    bully-member pause --log sqlite:group.db
    bully-member resume --log sqlite:group.db
    bully-member prune --keep 3 --log sqlite:group.db
    bully-member release --node b --session-file FILE --log sqlite:group.db
    bully-member repair --log sqlite:group.db [--cut OFFSET]
    bully-member completion bash

`init` makes the log of a group, in a file or in etcd. The log keeps the group's settings, including the names of its
nodes. `run` starts the worker when its node owns partitions, with BULLY_NODE, BULLY_TOKEN, BULLY_PARTITIONS,
BULLY_COORDINATOR, BULLY_SETTINGS and BULLY_SETTINGS_FILE in the environment of the worker, and stops it before another
node can own them. `run` finds the settings in the log; it refuses a configuration that the group neither has, nor had,
nor is requested to have. `show-config` prints the settings, and `resize` gives the group other ones: a new epoch
starts, with a log of its own. `prune` removes old epochs. The default of --log is BULLY_LOG of the environment.
`docs/MEMBERS.md` explains all commands.
"""
from __future__ import annotations

import signal

if __name__ == '__main__':  # as in `bully_member`: signals are held back until the command handles them
    signal.pthread_sigmask(signal.SIG_BLOCK, signal.valid_signals())

import argparse
import sys
from collections.abc import Collection

from . import __version__
from .command_options import parser_of
from .commands import COMMANDS, command_of
from .display import shown_name
from .exit_statuses import INTERRUPTED, NOBODY_READS, OK, status_of
from .outputs import PROGRAM, drop_output, drop_what_is_closed, escape_what_has_no_room, say_last, text_of
from .signals import ignore_ends, let_signals_by


def parser(words: Collection[str] = COMMANDS) -> argparse.ArgumentParser:
    """The parser of the command's words, with the options of those commands that are among these words."""
    listed = ((name, about, command_of(name) if name in words else None) for name, (_, about) in COMMANDS.items())
    return parser_of(PROGRAM, __doc__ or '', __version__, listed)


def main(words: list[str] | None = None) -> int:
    """Runs the command with these words. Returns its exit status: 0; 1 if the worker or its watchdog ended by itself,
    the worker or the epoch didn't end, or the group isn't well; 2 for bad options; 3 for a bad configuration, or a log
    that belongs to another group, or is damaged; 4 if the log, a file or a thread can't be used now; 5 if the group has
    no such node; 6 if no further try helps: the log has another format, the address to listen on can't be used, the
    library isn't there, or the kernel doesn't list children; 7 if there already is a log; 130 after ^C, but for `status
    --watch`; 141 if nobody reads its output."""
    drop_what_is_closed()
    escape_what_has_no_room()
    options = read_words(words)
    try:
        if options.command != 'run':  # it handles signals itself
            let_signals_by()
        status = command_of(options.command).run(options)
        sys.stdout.flush()
        return status
    except BrokenPipeError:  # of standard output: a store raises its own error
        drop_output()
        return NOBODY_READS
    except KeyboardInterrupt:
        drop_output()
        return INTERRUPTED
    except Exception as fault:
        status = status_of(fault)
        if status == OK:
            raise
        if isinstance(fault, OSError):
            drop_output()
        say_last(shown_name(text_of(fault)), status)
        return status
    finally:
        if options.command == 'run':  # it has left, and Python stops handling signals before it exits
            ignore_ends()


def read_words(words: list[str] | None) -> argparse.Namespace:
    """The options of the command. An unknown word isn't repeated unless it is an option, because it may be a
    password."""
    given = sys.argv[1:] if words is None else words
    taker = parser(given)
    options, others = taker.parse_known_args(given)
    if others:
        named = [word.partition('=')[0] for word in others if word.startswith('-')]
        taker.error(f'{options.command} does not take {" ".join(named) or "so many words"}')
    return options


if __name__ == '__main__':
    sys.exit(main())
