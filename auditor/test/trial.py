#!/usr/bin/env python3
"""A trial: bad days of real devices, and an operator who asks for an answer and follows it literally from its first line down. After each step
all that a person wants and that stood on some disk still stands on one, or where the answer said to save it; or the answer said that it goes.
In the end the steps led where they say, and what is wanted is still there.

    auditor/test/trial.py SEED [DAYS] [--keep DIRECTORY]

SYNCTHING names the programs that devices run: a day takes one of them for all devices, or all by turns. It isn't part of run.py: a day takes
some minutes. It prints what went, and what the answer had said of it. The status is 1 where the answer hadn't said that it goes, or where a step
didn't lead where it says.
"""

import argparse
import itertools
import os
import random
import tempfile
from pathlib import Path

import syncthing
from exporting import built
from following import Answer, Operator
from quick import Quick, come_to_an_end, node_of, rest, start, stop
from storm import NAMES
from storming import ALL, DIRECTORIES, FILES
from syncthing import programs
from wanted import WantedStorm, things_on
from worlds import release_of

KINDS = ["sendreceive", "sendreceive", "sendreceive", "sendreceive", "sendonly", "receiveonly", "receiveonly"]
MOST_ANSWERS = 4
MOST_TRIES = 3
# What an answer says of names of which something goes and isn't lost: a recorded change or deletion, or a change that no scan has seen, replaced it.
TOLD = (" right goes", " deleted goes", " changed goes")
WAYS = ["rot", "rot", "empty", "cut", "zeros", "vanish", "mode"]


class Day:
    """A bad day of some devices."""

    def __init__(self, seed, room):
        self.random, self.seed, self.room = random.Random(seed), seed, room
        several = [programs()] * 2 if len(programs()) > 1 else []
        syncthing.programs_in_turn = itertools.cycle(self.random.choice([[one] for one in programs()] + several))
        count = self.random.choice([3, 3, 3, 4, 5])
        self.devices = [Quick(room, name) for name in NAMES[:count]]
        self.is_hub = self.random.random() < .2
        self.size = self.random.choice([3, 8, 20, 40])
        for place, device in enumerate(self.devices):
            device.kind = self.random.choice(KINDS if place else KINDS[:4])
            device.linked = self.devices if not self.is_hub or not place else [self.devices[0], device]
        self.storm = WantedStorm(self.devices, self.random)

    def __str__(self):
        told = ", ".join(f"{device.name} {device.kind} {release_of(device.program)}" for device in self.devices)
        return f"day {self.seed}, {'a hub' if self.is_hub else 'all linked'}, of {self.size} changes: {told}"

    def go_bad(self):
        """Has the day go bad."""
        for device in self.devices:
            device.set_up(device.linked, "sendreceive")
        self.storm.make_all()
        self.run(self.devices)
        for device in self.devices:
            device.set_up(device.linked, device.kind)
        self.record_empty()
        for _ in range(self.random.choice([1, 2, 2])):
            self.go_on_without_some()
        for _ in range(self.size // 2):
            self.storm.change(self.random.choice(self.devices), self.random.choice(ALL), "at last")
        self.do_harm()

    def run(self, devices):
        """Has devices run until they are idle."""
        start(devices)
        rest(devices)
        stop(devices)

    def record_empty(self):
        """A crash empties files, and a scan records that. On some device the bytes are put back, under the recorded time of the empty file."""
        device, names = self.random.choice(self.devices), self.random.sample(FILES, self.random.choice([0, 0, 2]))
        bytes_of = {name: (device.files / name).read_bytes() for name in names if (device.files / name).is_file()}
        for name in bytes_of:
            self.storm.harm(device, "empty", name)
        if bytes_of:
            self.run(self.devices)
        for name, data in bytes_of.items():
            path = device.files / name
            if path.is_file():
                times = path.stat()
                path.write_bytes(data)
                os.utime(path, ns=(times.st_atime_ns, times.st_mtime_ns))

    def go_on_without_some(self):
        """Users change what they have while some devices are off: edits, renames, a whole directory that goes."""
        for _ in range(self.size):
            self.storm.change(self.random.choice(self.devices), self.random.choice(ALL), "off")
        if self.random.random() < .4:
            device = self.random.choice(self.devices)
            for name in self.random.sample(DIRECTORIES, 2):
                self.user(device, name, "delete")
        group = self.random.sample(self.devices, self.random.randrange(1, len(self.devices)))
        self.storm.log.append(["up", sorted(device.name for device in group)])
        self.run(group)

    def user(self, device, name, way):
        """A user's change of a name."""
        path = device.files / name
        if path.exists() and not path.is_symlink():
            before = things_on(device.files)
            self.storm.log.append(["user", device.name, name, way])
            getattr(self.storm, way)(path, device, name)
            self.storm.note(device, False, before, things_on(device.files))

    def do_harm(self):
        """A crash, a slip, and rot: of some files, of a directory, of a whole disk, and of what others renamed meanwhile."""
        for _ in range(self.size // 2 + 2):
            way = self.random.choice(WAYS)
            device, name = self.random.choice(self.devices), self.random.choice(FILES + [f"{above}/a" for above in DIRECTORIES])
            if way == "mode":
                self.user(device, name, way)
            else:
                self.storm.harm(device, way, name)
        for _ in range(self.random.choice([0, 0, 1, 2])):
            self.storm.harm(self.random.choice(self.devices), self.random.choice(["vanish", "vanish", "replace"]), self.random.choice(DIRECTORIES))
        if self.random.random() < .2:
            device, way = self.random.choice(self.devices), self.random.choice(["empty", "rot", "cut"])
            for name in self.random.sample(FILES, 12):
                self.storm.harm(device, way, name)
        if self.random.random() < .6:
            self.rename_beside_rot()

    def rename_beside_rot(self):
        """Files rot on one device, which is off, and another one renames them."""
        one, other = self.random.sample(self.devices, 2)
        names = [name for name in self.random.sample(FILES, 3) if (one.files / name).is_file() and (other.files / name).is_file()]
        for name in names:
            self.storm.harm(one, "rot", name)
            self.user(other, name, "rename")
        self.run([other])


class Judge:
    """Says after each step what is gone that a person wants, and what the answer had said of it."""

    def __init__(self, day, saved):
        self.day, self.saved = day, saved
        self.found, self.told, self.gone = [], [], set()

    def there(self):
        """All that stands on some disk or was saved."""
        made = set()
        for root in (self.saved, *(device.files for device in self.day.devices)):
            made |= set(things_on(root).values())
        return made

    def begin(self, answer):
        """An answer is asked for: what stands now counts."""
        self.answer = answer
        there = self.there()
        self.due = {thing: name for thing, name in self.day.storm.wanted.items() if thing in there and thing not in self.gone}
        self.goes = {fate["name"]: fate for fate in answer.outlook["fates"]} if answer.is_wrong else {}

    def after(self, step):
        """A step was taken."""
        there = self.there()
        for thing, name in self.due.items():
            if thing not in there and thing not in self.gone:
                self.gone.add(thing)
                fates = self.fates_of(thing)
                line = f"{name} {thing} is gone after: {step}; told: {fates}"
                (self.told if any(fate.endswith(TOLD) for fate in fates) else self.found).append(line)

    def fates_of(self, thing):
        """What the answer said of the names under which it stood: the fate of each, and whether it goes."""
        made = []
        for fate in self.goes.values():
            if any(key_of(now) == thing for now in fate.get("now", [])):
                stays = all(any(key_of(other) == thing for other in end) for end in fate["ends"])
                made.append(f"{fate['name']} {fate['fate']}{'' if stays else ' goes'}")
        return made


def key_of(thing):
    """A told thing as what stands on a disk."""
    more = {"file": (thing.get("size"), thing.get("content")), "symlink": (thing.get("target"),), "directory": ()}[thing["type"]]
    return (thing["type"], *more)


def broken(answer, devices):
    """The promises of an answer's plans that don't hold: all devices have what the plan says."""
    made = []
    for plan in answer.outlook["plans"]:
        for name in plan["names"] if "then" in plan else []:
            nodes = {tuple(node_of(device.files / name)) if os.path.lexists(device.files / name) else None for device in devices}
            if len(nodes) > 1 or None in nodes:
                made.append(f"{name}: {nodes}, and the plan is {plan}")
    return made


def try_day(seed, room, program, keep):
    """Has a bad day, and an operator who follows answers until all is in step. Gives what was found, and the names of the advice that was followed."""
    day = Day(seed, room / "devices")
    try:
        day.go_bad()
        found, told, used = followed(day, room, program, keep)
    except (AssertionError, ConnectionError) as failed:
        if "address already in use" not in str(failed) and not isinstance(failed, ConnectionError):
            raise
        print(f"day {seed} wasn't followed to its end: another program took a port, or a device was silent", flush=True)
        return None, set()
    finally:
        stop(day.devices)
    print(day)
    for line in told:
        print("  told:", line)
    for line in found:
        print("  FOUND:", line)
    print(f"  {len(day.storm.wanted)} things are wanted; {len(told)} went as told, {len(found)} findings; followed: {' '.join(sorted(used))}", flush=True)
    return found, used


def whole_day(seed, program, keep):
    """The same, tried again where it couldn't be followed to its end."""
    for _ in range(MOST_TRIES):
        with tempfile.TemporaryDirectory(prefix="trial-") as room:
            found, used = try_day(seed, Path(room), program, keep)
        if found is not None:
            break
    return found, used


def followed(day, room, program, keep):
    """Follows answers, one after another."""
    judge, used = Judge(day, room / "saved"), set()
    for count in range(MOST_ANSWERS):
        answer = Answer(program, day.devices)
        if keep:
            keep.joinpath(f"{day.seed}-{count}.txt").write_text(answer.text)
        if not answer.is_wrong:
            break
        judge.begin(answer)
        operator = Operator(day.devices, room, judge.after, day.random)
        operator.count = count * 10000
        operator.follow(answer)
        stop(day.devices)
        if not come_to_an_end(day.devices):
            judge.found.append("they came to no rest")
        judge.after("all ran once more")
        judge.found += [f"broken by answer {count}: {one}" for one in broken(answer, day.devices) if not operator.has_chosen]
        used |= operator.used
    return judge.found, judge.told, used


def main():
    asked = argparse.ArgumentParser()
    asked.add_argument("seed", type=int)
    asked.add_argument("days", type=int, nargs="?", default=1)
    asked.add_argument("--keep", type=Path)
    asked = asked.parse_args()
    os.umask(0o022)
    if asked.keep:
        asked.keep.mkdir(parents=True, exist_ok=True)
    found, used, whole = [], set(), 0
    with tempfile.TemporaryDirectory(prefix="trial-programs-") as room:
        program = built(Path(room)) / "syncthing-audit"
        for seed in range(asked.seed, asked.seed + asked.days):
            one, kinds = whole_day(seed, program, asked.keep)
            whole += one is not None
            found, used = found + (one or []), used | kinds
    print(f"{whole} of {asked.days} days followed to their end, {len(found)} findings; followed: {' '.join(sorted(used))}")
    return bool(found) or not whole


if __name__ == "__main__":
    raise SystemExit(main())
