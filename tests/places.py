"""Where this tree stands, and the environment of a process with the package."""
from __future__ import annotations

import os
from pathlib import Path

ROOT = Path(__file__).resolve().parents[1]
PYTHON = ROOT / 'bindings' / 'python'


def environment(**more: str) -> dict[str, str]:
    """That of a process with this package."""
    return {**os.environ, 'PYTHONPATH': str(PYTHON), **more}
