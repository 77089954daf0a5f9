#!/usr/bin/env python3
"""commits.py: prints the number by which whatever has its turn is chosen: that of the commits."""

import subprocess
from pathlib import Path

TOP = Path(__file__).resolve().parent.parent


def git(*words):
    """What git says, empty where it has nothing to say."""
    try:
        return subprocess.run(["git", "-C", TOP, *words], capture_output=True, text=True).stdout.strip()
    except OSError:
        return ""


def commits():
    """The number of commits; 0 without git. A shallow clone doesn't know it: the commit's own id stands in its place."""
    if git("rev-parse", "--is-shallow-repository") == "true":
        return int(git("rev-parse", "HEAD")[:8], 16)
    return int(git("rev-list", "--count", "HEAD") or 0)


if __name__ == "__main__":
    print(commits())
