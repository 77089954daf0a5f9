"""The number by which classes of cases, and slices of calls that fail, have their turn."""

import sys
from pathlib import Path

sys.path.append(str(Path(__file__).resolve().parents[2] / "tests"))

from commits import commits  # noqa: E402


def turn():
    """That of the commits, so that the next test run has the next one."""
    return commits()
