"""The signals that tell a command to end."""
from __future__ import annotations

import signal
from collections.abc import Callable

from .processes import ENDS


def at_signals(call: Callable[[], object]) -> list[str]:
    """Calls this when a signal tells the process to end, also one that was held back until now; later ones are ignored.
    Returns a list, to which the name of that signal is added. SIGHUP stays ignored if it is, as by nohup."""
    heard: list[str] = []

    def hear(number: int, _: object) -> None:
        ignore_ends()  # handlers of many signals would nest too deeply
        heard.append(signal.Signals(number).name)
        call()

    for number in ENDS:
        if number != signal.SIGHUP or signal.getsignal(number) != signal.SIG_IGN:
            signal.signal(number, hear)
    let_signals_by()
    return heard


def ignore_ends() -> None:
    """Signals that tell the process to end are ignored from now on."""
    for number in ENDS:
        signal.signal(number, signal.SIG_IGN)


def let_signals_by() -> None:
    """Signals aren't held back any more."""
    signal.pthread_sigmask(signal.SIG_UNBLOCK, signal.valid_signals())
