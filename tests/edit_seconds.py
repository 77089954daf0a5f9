#!/usr/bin/env python3
"""edit_seconds.py PROCESS: says how many processor seconds each edit took that the gate is lent, while that process runs
the gate. It looks once a second, until that process or, by SIGTERM, this one is ended, and prints a line for each edit.

The gate tries an edit in a folder of its own, on a copy of the crate, by which it is known here.
"""

import os
import signal
import sys
import time
from pathlib import Path

from edits import TOP, applied, lent, name_of

sys.path.insert(0, str(TOP / "tools/bench"))

from gate import below, processes  # noqa: E402


class Ended(Exception):
    """This process is to end."""


def end(*_):
    raise Ended


def room_of(process):
    """The folder in which a process tries an edit, if it does."""
    try:
        folder = Path(os.readlink(f"/proc/{process}/cwd"))
    except OSError:
        return None
    return folder if folder.name.startswith("rt-edit-") else None


def edit_in(room, texts):
    """The edit that is tried in a folder, by the texts that each edit makes."""
    for edit, changed in texts.items():
        if all((room / file).is_file() and (room / file).read_text(errors="replace") == text for file, text in changed.items()):
            return edit
    return None


def watch(top, texts, seconds):
    """Adds to each edit's processes the seconds that they have taken, until that process or this one is ended."""
    known = {}
    while True:
        found = processes()
        if top not in found:
            raise Ended
        for process in below(top, found):
            room = room_of(process)
            if room and room not in known:
                known[room] = edit_in(room, texts)
            if room and known[room]:
                seconds[known[room]][process] = found[process][1]
        time.sleep(1)


def main(top):
    signal.signal(signal.SIGTERM, end)
    texts = {edit: applied(edit) for edit in lent()}
    seconds = {edit: {} for edit in texts}
    try:
        watch(int(top), texts, seconds)
    except Ended:
        pass
    for edit, taken in seconds.items():
        told = f"{sum(taken.values()):.0f} processor seconds" if taken else "an earlier run tried it on this machine"
        print(f"  {name_of(edit)}: {told}")
    print(f"wrong: these edits took {sum(sum(it.values()) for it in seconds.values()):.0f} processor seconds")


if __name__ == "__main__":
    main(*sys.argv[1:])
