"""How tests wait: until something is so, and no longer than they have patience."""
from __future__ import annotations

import contextlib
import inspect
import time
from collections.abc import Callable

PATIENCE = 30.0  # seconds that anything may take for which a test waits


def wait_until(is_so: Callable[[], object], seconds: float = PATIENCE) -> None:
    """Waits until that is so, for so long at most."""
    end = time.monotonic() + seconds
    while not is_so():
        if time.monotonic() > end:
            raise AssertionError(f'in {seconds:g} s it did not come to be so: {source_of(is_so)}')
        time.sleep(0.01)


def source_of(call: Callable[[], object]) -> str:
    """What a test awaits, as it is written."""
    with contextlib.suppress(OSError, TypeError):  # it is no function of a file
        return inspect.getsource(call).strip()
    return repr(call)
