#!/usr/bin/env python3
"""Replays the histories of auditor/src/syncthing-audit/worlds on real devices of each version, and compares the ends exactly with those that
stand there: kinds, bytes, targets and conflict copies on each device.

    auditor/test/worlds.py all [SUBSTRING]       each world, all devices at once and one after another, some worlds at a time
    auditor/test/worlds.py Worlds                some worlds by turns, as a test of run.py

SYNCTHING names the programs of all versions.
"""

import datetime
import itertools
import json
import os
import subprocess
import sys
import tempfile
import time
import unittest
from concurrent.futures import ProcessPoolExecutor, as_completed
from pathlib import Path

import syncthing
from exporting import SOURCES, UNTIL, main
from foretold import root_of
from quick import MARKER, Quick, come_to_an_end, node_words, remove, rest, start, stop, tree_of
from syncthing import FOLDER, VERSIONS, programs, version_of

WORLDS = SOURCES / "src/syncthing-audit/worlds"
SIDE_BY_SIDE = 4
WORLDS_OF_A_TURN = 3
SECONDS_BEFORE_NOW = 2_000_000


def release_of(program):
    """The release of a program, as worlds have it: '1.19'."""
    return ".".join(version_of(program).split()[1].lstrip("v").split(".")[:2])


class Replay:
    """One world on real devices of one version."""

    def __init__(self, world, program, room):
        self.world, self.room = world, room
        syncthing.programs_in_turn = itertools.repeat(program)
        self.devices = {name: Quick(room, name) for name in sorted(world["devices"])}
        self.epoch = int(time.time()) - SECONDS_BEFORE_NOW
        self.set_up({})

    def set_up(self, kinds):
        """Writes all configurations."""
        for name, device in self.devices.items():
            device.set_up(list(self.devices.values()), kinds.get(name, "sendreceive"), **self.world.get("options", {}).get(name, {}))

    def play(self):
        """Takes all steps."""
        for step in self.world["history"]:
            if step[0] == "kinds":
                self.set_up(self.world["devices"])
            elif step[0] == "up":
                self.up(step[1:])
            else:
                device, verb, name, *more = step
                getattr(self, f"{verb}_step")(self.devices[device].files / name, *more)

    def up(self, words):
        """Has devices run until nothing changes any more."""
        running = [self.devices[word] for word in words if " " not in word]
        start(running)
        rest(running)
        for command, name in (word.split() for word in words if " " in word):
            self.devices[name].api("POST", f"db/{command}?folder={FOLDER}")
            rest(running)
        for device in running:
            device.scan()
        rest(running)
        stop(running)

    def write_step(self, path, text, seconds=0):
        path.parent.mkdir(parents=True, exist_ok=True)
        remove(path)
        path.write_text(text)
        self.touch_step(path, seconds)

    def touch_step(self, path, seconds):
        os.utime(path, (self.epoch + seconds, self.epoch + seconds))

    def rot_step(self, path, text):
        times, mode = path.stat(), path.stat().st_mode
        path.write_text(text)
        path.chmod(mode)
        os.utime(path, ns=(times.st_atime_ns, times.st_mtime_ns))

    def mode_step(self, path, mode):
        path.chmod(int(mode, 8))

    def directory_step(self, path):
        remove(path)
        path.mkdir(parents=True)

    def link_step(self, path, target):
        path.parent.mkdir(parents=True, exist_ok=True)
        remove(path)
        path.symlink_to(target)

    def delete_step(self, path):
        remove(path)

    def move_step(self, path, to):
        to = self.files_above(path) / to
        to.parent.mkdir(parents=True, exist_ok=True)
        path.rename(to)

    def files_above(self, path):
        """The folder's directory that a path is below."""
        return next(device.files for device in self.devices.values() if device.files in path.parents)

    def copy_step(self, path, device):
        name = path.relative_to(self.files_above(path))
        path.parent.mkdir(parents=True, exist_ok=True)
        remove(path)
        subprocess.run(["cp", "-a", self.devices[device].files / name, path], check=True)

    def end(self, order):
        """Has all devices come to an end."""
        devices = list(self.devices.values())
        before = {name: words_of(device.files) for name, device in self.devices.items()}
        for device in devices:
            remove(device.files / VERSIONS)
        if not come_to_an_end(devices, order and [self.devices[name] for name in order]):
            raise AssertionError("they came to no rest")
        return {name: {**words_of(device.files), **words_of_versions(device, before[name])} for name, device in self.devices.items()}


def words_of(files):
    """What stands below a directory, in a world's words."""
    made = {}
    for name in tree_of(files):
        words = node_words(files / name)
        if MARKER in Path(name).name:
            copies = made.setdefault(f"copies of {root_of(name)}", [])
            if words not in copies:
                copies.append(words)
                copies.sort()
        else:
            made[name] = words
    return made


def words_of_versions(device, before):
    """What a device has among its old versions of that which stood there before, in a world's words."""
    words = {name: node_words(path) for name, path in device.old_versions().items()}
    return {f"old versions of {name}": word for name, word in words.items() if before.get(name) == word}


def spread(end):
    """An end with an entry for each device."""
    return {device: names for devices, names in end.items() for device in devices.split(", ")}


def replay(path, program, order):
    """Replays a world, and gives the end that came."""
    with tempfile.TemporaryDirectory(prefix="world-") as room:
        one = Replay(json.loads(path.read_text()), program, Path(room))
        try:
            one.play()
            return one.end(order)
        finally:
            stop(one.devices.values())


def known_ends(path, program):
    """The ends that stand in a world's file for a program."""
    ends = json.loads(path.read_text())["ends"]
    return [spread(end) for end in ends.get("both", []) + ends.get(release_of(program), [])]


def orders_of(path):
    """The orders in which the devices of a world are started: all at once, and each first once."""
    names = sorted(json.loads(path.read_text())["devices"])
    return [None] + [names[place:] + names[:place] for place in range(len(names))]


def judge(job):
    """Replays a world, and gives whether another end came than those known, and what was replayed, with the end then."""
    path, program, order = job
    what = f"{path.stem}, {release_of(program)}, {', '.join(order) if order else 'all at once'}"
    try:
        came = replay(path, program, order)
    except (AssertionError, OSError, subprocess.CalledProcessError) as error:
        return True, f"{what}: {error!r}"
    if came in known_ends(path, program):
        return False, what
    return True, f"{what}:\n  came  {json.dumps(came)}\n  known {json.dumps(known_ends(path, program))}"


class Worlds(unittest.TestCase):
    """Some worlds on real devices, others each day."""

    def test_worlds_of_the_day(self):
        paths = sorted(WORLDS.glob("*.json"))
        self.assertGreater(len(paths), WORLDS_OF_A_TURN)
        turn = datetime.date.today().toordinal() * WORLDS_OF_A_TURN
        tried = 0
        for place in range(WORLDS_OF_A_TURN):
            if time.monotonic() > float(os.environ.get(UNTIL, "inf")):
                self.skipTest("the time is over")
            path = paths[(turn + place) % len(paths)]
            untrue, what = judge((path, programs()[place % len(programs())], None))
            self.assertFalse(untrue, what)
            tried += 1
        print(f"NOTE: {tried} worlds of {len(paths)} were replayed")


def replay_all(part_of_name):
    """Replays all worlds on all programs in all these orders; says of each whether it was untrue. Each worker is a process of its own, since a
    process gives out ports and programs from one place."""
    paths = [path for path in sorted(WORLDS.glob("*.json")) if part_of_name in path.stem]
    jobs = [(path, program, order) for path in paths for program in programs() for order in orders_of(path)]
    jobs.sort(key=lambda job: job[2] is not None)
    with ProcessPoolExecutor(SIDE_BY_SIDE) as workers:
        for done in as_completed([workers.submit(judge, job) for job in jobs]):
            untrue, what = done.result()
            print(f"UNTRUE: {what}" if untrue else f"true: {what}", flush=True)
            yield untrue


if __name__ == "__main__":
    os.umask(0o022)
    if sys.argv[1:2] == ["all"]:
        raise SystemExit(any(list(replay_all("".join(sys.argv[2:])))))
    main()
