"""The command `bully-member`, whose code is in `bully.command`. Signals are held back from the first line on until the
command handles them: otherwise the first process of a container would lose them."""
from __future__ import annotations

import signal
import sys


def main() -> int:
    """Runs the command with the arguments of this process. Returns its exit status."""
    signal.pthread_sigmask(signal.SIG_BLOCK, signal.valid_signals())
    from bully.command import main as run  # it takes a while

    return run()


if __name__ == '__main__':
    sys.exit(main())
