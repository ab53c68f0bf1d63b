"""Appends in a store that can't be read."""
from __future__ import annotations

import zlib

from bully.encoding import LARGEST

ONE = zlib.compress(b'recover,3\n')

BAD_APPENDS = [
    b'recover,3\n', b'', b'\xff\n', ONE[:-1], ONE[: len(ONE) // 2], ONE + b'x', ONE + ONE, ONE[:-4] + b'\0\0\0\0',
    zlib.compress(b'\n' * (LARGEST + 1)), zlib.compress(b'x' * 4 * LARGEST),
]  # fmt: skip
