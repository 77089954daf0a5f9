#!/usr/bin/env python3
"""steps.py PROGRAM: runs the built program on scenarios that are put together of pieces, and compares what it tells, and
what the document of their end says. The rows stand in pieces/runs.py and pieces/devices.py. What is due was worked out by
hand, by docs/documents.md. The last line is 'N passed, M failed'."""

import os
import sys
from pathlib import Path

from pieces import devices, runs
from scenario import Program


def main(given, *_):
    program = Program(Path(given).resolve())
    if not os.access(program.path, os.X_OK):
        program.count.fails(f"there is no program {given}")
        return program.count.told()
    for part in (runs, devices):
        for row in part.ROWS:
            # What the program doesn't write where it should is one failure, and the others are tried all the same.
            try:
                row(program)
            except (KeyError, IndexError, StopIteration, ValueError) as error:
                program.count.fails(f"{row.__name__}: the document isn't what it should be: {error!r}")
    return program.count.told()


if __name__ == "__main__":
    sys.exit(main(*sys.argv[1:]))
