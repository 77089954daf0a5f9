#!/usr/bin/env python3
"""What an audit of running devices costs, and whether it tells anything false beside a busy writer.

    tools/bench/live.py [--auditor FILE] [--runs N] [--files N] [--bytes N] [--still SECONDS] [--jobs N] [--room DIR] [runs | slowdown]

Three real Syncthing devices on loopback have a folder with 3,000 files in step, and watch it. A writer changes one file
every 100 ms and another one of 200 each second. 'syncthing-audit run' is run over and over beside it. What fails of the
other names is false: nobody touches them. Then a byte of one of them is changed on one disk, and has to be found. The figures
are seconds of each run and bytes of the indexes that it copies. 'slowdown' measures how long a scan takes, and how long it takes until
a new file is on all devices, with and without an audit beside it. Without a word both are done.
"""

import argparse
import contextlib
import json
import os
import shutil
import statistics
import subprocess
import sys
import tempfile
import threading
import time
import xml.etree.ElementTree as xml
from pathlib import Path

TOP = Path(__file__).resolve().parents[2]
sys.path.insert(0, str(TOP / "auditor/test"))

from exporting import PROGRAM, build_words, go_environment  # noqa: E402
from syncthing import FOLDER, Device, wait_until, wait_until_in_step  # noqa: E402

NAMES = ("laptop", "server", "nas")
OFTEN, BUSY = "writer/often", 200
PROBES = 30


def set_up(room, asked):
    """Three devices in step that watch their folders."""
    devices = [Device(room, name) for name in NAMES]
    for one in devices:
        one.configure(devices)
        tree = xml.parse(one.home / "config.xml")
        tree.getroot().find("folder").attrib.update(fsWatcherEnabled="true", fsWatcherDelayS="1")
        tree.write(one.home / "config.xml")
    for number in range(asked.files):
        path = devices[0].files / f"{number // 100:03}" / f"{number % 100:02}.bin"
        path.parent.mkdir(exist_ok=True)
        path.write_bytes(os.urandom(asked.bytes))
    (devices[0].files / "writer").mkdir()
    (devices[0].files / OFTEN).write_text("begun")
    for one in devices:
        one.start()
    devices[0].scan()
    wait_until_in_step(*devices)
    return devices


class Writer(threading.Thread):
    """Changes files on the first device until it is ended."""

    def __init__(self, files):
        super().__init__()
        self.files, self.ended, self.changes = files, threading.Event(), 0
        self.start()

    def run(self):
        while not self.ended.wait(0.1):
            self.changes += 1
            (self.files / OFTEN).write_text(f"change {self.changes}")
            if self.changes % 10 == 0:
                (self.files / "writer" / f"{self.changes // 10 % BUSY:03}").write_text(f"change {self.changes}")

    def end(self):
        self.ended.set()
        self.join()


def audit(room, asked, devices):
    """One run: its summary and its seconds."""
    began = time.monotonic()
    ran = subprocess.run([room / PROGRAM, "run", *(one.home for one in devices), "--still", str(asked.still), *asked.jobs, "--json", "--syncaudit",
                          asked.auditor], capture_output=True, text=True)
    spent = time.monotonic() - began
    if ran.returncode not in (0, 1, 6):
        raise SystemExit(f"it ended with {ran.returncode}: {ran.stderr}")
    return json.loads(ran.stdout), spent


def bytes_of_index(device):
    """How many bytes a copy of the device's index takes. Syncthing may take a table away meanwhile."""
    sizes = []
    for path in (device.home / "index-v0.14.0.db").iterdir():
        with contextlib.suppress(FileNotFoundError):
            sizes.append(path.stat().st_size)
    return sum(sizes)


def names_of(folder):
    """The names that are told to be wrong, and those in motion."""
    groups = [name for group in folder["groups"] for name in [*group["first_names"], *["group"] * (group["names"] > len(group["first_names"]))]]
    return [one["name"] for one in folder["files"] if one["faults"]] + groups, [one["name"] for one in folder["live"]["in_motion"]]


def is_writers(name):
    """Whether the writer changes this name."""
    return name == "writer" or name.startswith("writer/")


def probe(devices, number):
    """The seconds until a new file is on all devices."""
    began = time.monotonic()
    (devices[0].files / f"probe-{number}").write_text("probe")
    while not all((one.files / f"probe-{number}").exists() for one in devices):
        if time.monotonic() - began > 300:
            raise SystemExit("a file doesn't come")
        time.sleep(0.01)
    return time.monotonic() - began


def probes(devices, first):
    """The seconds of some probes, and of a scan of the first device's folder behind each."""
    arrivals, scans = [], []
    for number in range(first, first + PROBES):
        arrivals.append(probe(devices, number))
        began = time.monotonic()
        devices[0].scan()
        scans.append(time.monotonic() - began)
    return arrivals, scans


def measure_runs(room, asked, devices):
    """Runs beside the writer: prints what they tell, and gives whether nothing of it is false."""
    writer = Writer(devices[0].files)
    wait_until("the writer's file is everywhere", lambda: all((one.files / "writer/001").exists() for one in devices))
    false, strange, behind, moving, times, copies, still = [], [], 0, [], [], [], []
    for _ in range(asked.runs):
        summary, spent = audit(room, asked, devices)
        (folder,) = summary["folders"]
        wrong, moved = names_of(folder)
        false += [name for name in wrong if not is_writers(name)]
        strange += [name for name in moved if not is_writers(name)]
        behind += len([name for name in wrong if is_writers(name)])
        moving.append(len(moved))
        times.append(spent)
        still.append(folder["live"]["still_seconds"])
        copies += [bytes_of_index(one) for one in devices]
    name = "000/07.bin"
    path = devices[1].files / name
    about = path.stat()
    with path.open("r+b") as file:
        file.seek(asked.bytes // 2)
        file.write(b"rot!")
    os.utime(path, ns=(about.st_atime_ns, about.st_mtime_ns))
    summary, _ = audit(room, asked, devices)
    wrong, _ = names_of(summary["folders"][0])
    is_found = [one for one in wrong if not is_writers(one)] == [name]
    writer.end()
    print(f"{asked.runs} runs beside {writer.changes} changes: {len(false)} names told falsely to be wrong {false[:3]}, "
          f"{len(strange)} falsely in motion {strange[:3]}")
    print(f"of the writer's names: {statistics.mean(moving):.1f} in motion in a run, at least {min(moving)}; {behind} told to be behind in all runs")
    print(f"a changed byte {'is found' if is_found else 'is not found'}, and all else in step beside the writer")
    print(f"seconds of a run: {statistics.median(times):.2f} in the middle, {max(times):.2f} at most; still for {min(still):.2f} s at least")
    print(f"bytes of an index, which each look copies: {statistics.median(copies):,.0f}, at most {max(copies):,}")
    return not false and not strange and min(moving) > 0 and is_found


def measure_slowdown(room, asked, devices):
    """How long a new file takes to all devices, with and without audits beside it."""
    alone = probes(devices, 0)
    ended = threading.Event()
    count = []

    def audits():
        while not ended.is_set():
            audit(room, asked, devices)
            count.append(1)
    beside = threading.Thread(target=audits)
    beside.start()
    busy = probes(devices, PROBES)
    ended.set()
    beside.join()
    for what, without, beside in zip(("until a new file is on all devices", "a scan of the first device's folder"), alone, busy):
        print(f"{what}: {statistics.median(without):.3f} s; beside {len(count)} audits, one after the other, {statistics.median(beside):.3f} s "
              f"({statistics.median(beside) / statistics.median(without):.2f} times), at most {max(without):.3f} and {max(beside):.3f} s")


def main():
    parser = argparse.ArgumentParser(description=__doc__.splitlines()[0])
    parser.add_argument("what", nargs="?", choices=("runs", "slowdown"))
    parser.add_argument("--auditor", default=os.environ.get("SYNCAUDIT", TOP / "tools/release/syncaudit"))
    parser.add_argument("--runs", type=int, default=100)
    parser.add_argument("--files", type=int, default=3000)
    parser.add_argument("--bytes", type=int, default=100_000)
    parser.add_argument("--still", type=float, default=2)
    parser.add_argument("--jobs", type=lambda number: ["--jobs", number], default=[])
    parser.add_argument("--room", default=None)
    asked = parser.parse_args()
    asked.auditor = shutil.which(asked.auditor) or sys.exit(f"{asked.auditor} isn't there")
    with tempfile.TemporaryDirectory(prefix="syncthing-audit-bench-", dir=asked.room) as made:
        room = Path(made)
        subprocess.run(build_words(room), env=go_environment(room), check=True)
        devices = set_up(room, asked)
        try:
            print(f"three devices with {asked.files:,} files of {asked.bytes:,} bytes, {FOLDER}")
            if asked.what != "runs":
                measure_slowdown(room, asked, devices)
            is_true = asked.what == "slowdown" or measure_runs(room, asked, devices)
        finally:
            for one in devices:
                one.stop()
    sys.exit(0 if is_true else 1)


main()
