"""Rooms in which crates are proved side by side.

One run of rt at a time works in a crate's folder and in those below it. So each crate is proved in a repository of its own,
which has this crate and those below it and stands in TOP/out/program/rooms. What is left in the crate's out/ goes back to
TOP. The sources are copied first, to TOP/out/program/sources: what is saved meanwhile isn't proved.
"""

import os
import re
import shutil
import signal
import subprocess
import time
from pathlib import Path

PROGRAM = "syncaudit"


def link(file, to):
    """Gives a file a second name: rt makes such a file anew, and never writes into it."""
    try:
        os.link(file, to)
    except OSError:
        shutil.copy2(file, to)


class Rooms:
    """The rooms of a repository, and what runs there. 'uses' has what each crate stands on, and the lowest crate first."""

    def __init__(self, top, uses):
        self.top, self.uses, self.apart = top, uses, top / "out/program"
        self.sources, self.rooms = self.apart / "sources", self.apart / "rooms"
        self.running, self.below = {}, {}
        for name, others in uses.items():
            self.below[name] = {*others}.union(*[self.below[other] for other in others])

    def bring_back(self):
        """Brings what was proved back, also where an earlier run was ended before it could."""
        for room in self.rooms.glob("*"):
            self.bring_back_one(room.name)

    def bring_back_one(self, name):
        """Brings what was proved of this crate back, and removes its room."""
        made, place = self.rooms / name / "crates" / name / "out", self.top / "crates" / name
        if made.is_dir() and place.is_dir():
            shutil.rmtree(place / "out", ignore_errors=True)
            made.rename(place / "out")
        shutil.rmtree(self.rooms / name)

    def copy_sources(self):
        """Copies the sources of these crates, but the edits that must fail."""
        shutil.rmtree(self.apart, ignore_errors=True)
        for name in self.uses:
            shutil.copytree(self.top / "crates" / name, self.sources / "crates" / name,
                            ignore=shutil.ignore_patterns("out", "must-fail"))
        for file in ("crates.txt", "HANDLES"):
            shutil.copy2(self.top / file, self.sources)

    def make(self, name):
        """Makes the room of a crate, with what is built of those below it and what earlier runs have left of itself, and
        gives the crate's folder there."""
        room, crates = self.rooms / name, {name, *self.below[name]}
        for crate in crates:
            shutil.copytree(self.sources / "crates" / crate, room / "crates" / crate, copy_function=link)
            library = self.top / "crates" / crate / "out/rlib"
            if crate != name and library.is_dir():
                shutil.copytree(library, room / "crates" / crate / "out/rlib", copy_function=link)
        left = self.top / "crates" / name / "out"
        if left.is_dir():
            left.rename(room / "crates" / name / "out")
        shutil.copy2(self.sources / "HANDLES", room)
        rows = (self.sources / "crates.txt").read_text().splitlines(keepends=True)
        (room / "crates.txt").write_text("".join(row for row in rows if re.split("[ :]", row)[0] in crates))
        return room / "crates" / name

    def start(self, name, jobs):
        """Begins to prove a crate with so many processors. The program is built by its stored run, which has status 0."""
        folder = self.make(name)
        words, given = ["rt", "lib", "--jobs", str(jobs)], "/dev/null"
        if name == PROGRAM:
            words, given = ["rt", "run", "--jobs", str(jobs), "--", "check"], folder / "stdin"
        with open(given, "rb") as input, open(self.log_of(name), "wb") as log:
            process = subprocess.Popen(words, cwd=folder, stdin=input, stdout=log, stderr=log, start_new_session=True)
        self.running[process.pid] = name, process

    def wait(self):
        """Waits until the proof of one crate has ended, and gives the crate, its status and the processor time that it took."""
        number, status, usage = os.wait4(-1, 0)
        name, process = self.running.pop(number)
        process.returncode = os.waitstatus_to_exitcode(status)
        return name, process.returncode, usage.ru_utime + usage.ru_stime

    def log_of(self, name):
        """Where all that rt says of the crate stands."""
        return self.apart / f"{name}.log"

    def is_at_work(self):
        """Whether a process works in a room."""
        for place in Path("/proc").glob("[0-9]*/cwd"):
            try:
                if Path(os.readlink(place)).is_relative_to(self.rooms):
                    return True
            except OSError:
                pass
        return False

    def stop(self):
        """Ends what is running, and waits until nothing works in the rooms: what rt has started ends after rt does."""
        for kind in (signal.SIGTERM, signal.SIGKILL):
            for number in self.running:
                try:
                    os.killpg(number, kind)
                except OSError:
                    pass
            for _ in range(50):
                if not self.is_at_work():
                    return
                time.sleep(0.1)
