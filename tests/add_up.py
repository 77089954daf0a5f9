#!/usr/bin/env python3
"""add_up.py FOLDER PART..: adds up what the parts of a test run counted, and prints it as one line.

A part's output is the file of that name in FOLDER, and its exit status the one of that name with '.status'. What a part
counted is its last line: 'N passed, M failed', after which ', K skipped' may stand. A part that left no such line, counted
nothing, or failed without counting a failure is named, and counts as one failure.
"""

import re
import sys
from pathlib import Path

LAST_LINE = re.compile(r"(\d+) passed, (\d+) failed(?:, (\d+) skipped)?")


def read(file):
    """The file's text, empty where there is none."""
    return file.read_text(errors="replace") if file.exists() else ""


def counted(folder, part):
    """How many passed, failed and were skipped in a part."""
    lines = read(folder / part).splitlines()
    found = LAST_LINE.fullmatch(lines[-1]) if lines else None
    if not found:
        print(f"the part '{part}' has no last line that counts")
        return 0, 1, 0
    passed, failed, skipped = (int(number or 0) for number in found.groups())
    if passed + failed + skipped == 0:
        print(f"the part '{part}' counts nothing")
        return 0, 1, 0
    if not failed and read(folder / f"{part}.status").strip() != "0":
        print(f"the part '{part}' counts no failure, and yet it failed")
        failed = 1
    return passed, failed, skipped


def main(folder, *parts):
    passed, failed, skipped = (sum(numbers) for numbers in zip(*(counted(Path(folder), part) for part in parts)))
    print(f"{passed} passed, {failed} failed" + (f", {skipped} skipped" if skipped else ""))
    return 1 if failed else 0


if __name__ == "__main__":
    sys.exit(main(*sys.argv[1:]))
