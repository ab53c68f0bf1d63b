"""The exit statuses of `bully-member`."""
from __future__ import annotations

import signal

OK, FAILED, BAD_WORDS, BAD_INPUT, NO_STORE, NO_NODE, NO_RETRY, EXISTS = range(8)
# (as a shell reports a program that ended by such a signal)
NOBODY_READS, INTERRUPTED = (128 + signal.SIGPIPE, 128 + signal.SIGINT)
NO_THREAD = "can't start new thread"  # a RuntimeError of Python

# The exceptions that end a command, by their names, so that no module is loaded only to know them.
STATUSES = {
    'BadWords': BAD_WORDS, 'ConfigFault': BAD_INPUT, 'OtherGroup': BAD_INPUT, 'NotInGroup': NO_NODE,
    'BullyError': BAD_INPUT, 'DamagedLog': BAD_INPUT, 'OtherLog': BAD_INPUT, 'ForeignLog': NO_RETRY,
    'LogExists': EXISTS, 'LogError': NO_STORE, 'NoLibrary': NO_RETRY, 'CantListen': NO_RETRY, 'OSError': NO_STORE,
    'WorkerEnded': FAILED, 'WatchdogLost': FAILED, 'WorkerStuck': FAILED, 'NotEnded': FAILED,
    'ChildrenUnlisted': NO_RETRY,
}  # fmt: skip


def status_of(fault: Exception) -> int:
    """The exit status by which an exception ends a command: that of its class, or of the nearest one above it; 0 if the
    exception is a bug."""
    if isinstance(fault, RuntimeError) and str(fault) == NO_THREAD:
        return NO_STORE
    return next((STATUSES[kind.__name__] for kind in type(fault).__mro__ if kind.__name__ in STATUSES), OK)
