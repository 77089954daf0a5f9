#!/usr/bin/env python3
"""prove.py TOP: proves the crates that the program stands on, and builds the program.

Standard input has a line 'CRATE: LOWER ..' for each crate, the lowest first. A crate begins once those that it stands on
are proved; of those that can begin the first is the one with the longest chain of others behind it. It gets two processors
where that is the longest chain of all, and processors that no crate waits for go to those that begin. Standard error tells
each crate that is proved and the time that is left.

TOP/out/program/sources has the sources that were proved in the end, and TOP/out/program/seconds the times of the crates of
which nothing had been proved before.
"""

import os
import signal
import sys
from pathlib import Path

from rooms import Rooms
from times import Progress, is_from_nothing, seconds_in

# The memory that a check takes; no crate takes more beside which another one is proved (tools/bench/README.md).
MEMORY = 3_000_000_000
# More processors than these hardly make one check shorter.
MOST_JOBS = 4
# What the crate gets for which most others wait.
JOBS_OF_THE_LONGEST = 2
LINES_OF_A_FAULT = 30


def lanes(processors, meminfo):
    """How many processors to use: at most one for each check that the free memory has room for."""
    free = next(int(line.split()[1]) * 1000 for line in meminfo.splitlines() if line.startswith("MemAvailable:"))
    return max(1, min(processors, free // MEMORY))


def jobs_for(free, waiting, is_longest):
    """How many of the free processors the first of the waiting crates gets."""
    fair = min(MOST_JOBS, free // waiting)
    return max(1, fair, min(free, JOBS_OF_THE_LONGEST) if is_longest else 0)


def prove(rooms, progress):
    """Proves all crates, and gives the seconds of those that were proved from nothing; None where one isn't proved."""
    left, done, jobs, found = set(rooms.uses), set(), {}, {}
    while left or jobs:
        ready = sorted((it for it in left if done.issuperset(rooms.uses[it])), key=progress.chain.get, reverse=True)
        longest = max(left, key=progress.chain.get, default=None)
        for place, name in enumerate(ready):
            free = progress.lanes - sum(jobs.values())
            if free:
                jobs[name] = jobs_for(free, len(ready) - place, name == longest)
                rooms.start(name, jobs[name])
                left.remove(name)
        name, status, seconds = rooms.wait()
        log = rooms.log_of(name).read_text(errors="replace")
        if status:
            print(*log.splitlines()[-LINES_OF_A_FAULT:], sep="\n", file=sys.stderr)
            progress.say(f"{name} isn't proved")
            return None
        if is_from_nothing(name, log):
            found[name] = round(seconds)
        rooms.bring_back_one(name)
        jobs.pop(name)
        done.add(name)
        progress.tell(name)
    return found


def main(top):
    uses = {}
    for line in sys.stdin:
        name, _, others = line.partition(":")
        uses[name] = others.split()
    rooms = Rooms(Path(top), uses)
    rooms.bring_back()
    rooms.copy_sources()
    processors = lanes(len(os.sched_getaffinity(0)), Path("/proc/meminfo").read_text())
    progress = Progress(uses, seconds_in(rooms.top / "tools/release/manifest"), processors)
    signal.signal(signal.SIGTERM, lambda *_: sys.exit(1))
    try:
        found = prove(rooms, progress)
    finally:
        rooms.stop()
        rooms.bring_back()
    if found is None:
        return 1
    (rooms.apart / "seconds").write_text("".join(f"seconds {name} {found[name]}\n" for name in found))
    return 0


if __name__ == "__main__":
    sys.exit(main(sys.argv[1]))
