#!/usr/bin/env python3
"""A storm: random changes on real devices, of which some run and some are off. Then all are started, and come to an end. The forecast of
what they had before must have that end, exactly: kinds, bytes and conflict copies on each device.

    auditor/test/storm.py SEED [ROUNDS] [--devices COUNT] [--runs COUNT] [--keep DIRECTORY]
    auditor/test/storm.py SEED [ROUNDS] --plans ..     some goal for each name that goes with others, and a plan for it, which is carried out
    auditor/test/storm.py --again DIRECTORY

SYNCTHING names the programs that devices run, as in the other tests: each round takes one of them for all devices, or all by turns. It
prints what was untrue, and the rate of what was true. With --keep it leaves what the devices had, and what came of it, for each round, and a world of each name
that was untrue; with --again such rounds are foretold anew.
"""

import argparse
import itertools
import json
import os
import random
import shutil
import subprocess
import tempfile
from pathlib import Path

import syncthing
from exporting import built, go_environment
from foretold import compare, foretell, make_parts
from planned import carry_out, with_plans
from quick import Quick, come_to_an_end, rest, start, stop, tree_of
from storming import ALL, Storm
from syncthing import programs

KINDS = ["sendreceive", "sendreceive", "sendreceive", "sendonly", "receiveonly", "receiveonly"]
NAMES = ["alpha", "beta", "gamma", "delta", "omega"]
VERSIONS_OF = {"beta": "simple", "gamma": "simple"}  # how devices keep old versions


class Round:
    """One round of a storm."""

    def __init__(self, seed, room, count):
        self.random = random.Random(seed)
        self.seed, self.room = seed, room
        turns = self.random.choice([[one] for one in programs()] + ([programs()] if len(programs()) > 1 else []))
        syncthing.programs_in_turn = itertools.cycle(turns)
        self.devices = [Quick(room, name) for name in NAMES[:count]]
        self.kinds = {device.name: self.random.choice(KINDS) for device in self.devices}
        self.storm = Storm(self.devices, self.random)

    def linked(self, device):
        """The devices with which one shares the folder, and itself."""
        return self.devices

    def begin(self):
        """Brings all devices into step, and has some history."""
        for device in self.devices:
            device.set_up(self.linked(device), "sendreceive", VERSIONS_OF.get(device.name, ""))
        self.storm.make_all()
        start(self.devices)
        rest(self.devices)
        if self.random.random() < .7:
            for name in self.random.sample(ALL, 16):
                self.storm.change(self.random.choice(self.devices), name, "history")
            for device in self.devices:
                device.scan()
            rest(self.devices)
        stop(self.devices)
        for device in self.devices:
            device.set_up(self.linked(device), self.kinds[device.name], VERSIONS_OF.get(device.name, ""))

    def plan(self, phases):
        """When which names are changed on which devices."""
        made = {}
        for name in ALL:
            for _ in range(self.random.choices([0, 1, 2, 3, 4], [2, 4, 5, 3, 1])[0]):
                phase = self.random.choice([*range(phases), "last", "last"])
                runs = phase != "last" and self.random.random() < .3
                made.setdefault((phase, runs), []).append((self.random.choice(self.devices), name))
        for changes in made.values():
            self.random.shuffle(changes)
        return made

    def rage(self):
        """Changes names, with some of the devices running."""
        phases = self.random.choice([2, 2, 3])
        plan = self.plan(phases)
        for phase in range(phases):
            group = self.random.sample(self.devices, self.random.choices([1, 2, 3], [45, 45, 10])[0])
            for device, name in plan.get((phase, False), []):
                self.storm.change(device, name, f"{phase} off")
            self.storm.log.append([f"{phase} up", sorted(device.name for device in group)])
            start(group)
            rest(group)
            for device, name in plan.get((phase, True), []):
                self.storm.change(device, name, f"{phase} on")
                if device in group and self.random.random() < .6:
                    device.scan_below(name)
                    self.storm.log.append([f"{phase} scan", device.name, name])
            rest(group)
            stop(group)
        for device, name in plan.get(("last", False), []):
            self.storm.change(device, name, "last")

    def ends(self, runs):
        """Has all devices come to an end, some times from the same state: all at once, and then one after another."""
        kept = self.room.with_name(self.room.name + ".kept")
        subprocess.run(["cp", "-a", self.room, kept], check=True)
        for run in range(runs):
            if run:
                shutil.rmtree(self.room)
                subprocess.run(["cp", "-a", kept, self.room], check=True)
            order = None if run == 0 else self.random.sample(self.devices, len(self.devices))
            if not come_to_an_end(self.devices, order):
                print(f"round {self.seed}: run {run} came to no rest", flush=True)
                continue
            yield {device.name: tree_of(device.files) for device in self.devices}
        shutil.rmtree(kept)


def run_round(seed, count, runs, audit, keep, planner):
    """Runs a round, and leaves its parts and what came of it; with a program that plans, plans are carried out first."""
    with tempfile.TemporaryDirectory(prefix="storm-") as room:
        one = Round(seed, Path(room) / "room", count)
        try:
            one.begin()
            one.rage()
            keep.mkdir(parents=True, exist_ok=True)
            parts = make_parts(audit, one.devices, keep)
            if planner:
                planned = foretell(planner, parts, "--plans", str(seed))
                (keep / "plans.json").write_text(json.dumps(planned))
                carry_out(planned["plans"], one.devices)
            ends = list(one.ends(runs))
        finally:
            stop(one.devices)
    names = [device.name for device in one.devices]
    made = {"seed": seed, "names": names, "kinds": one.kinds, "programs": [device.program for device in one.devices], "ends": ends, "log": one.storm.log}
    (keep / "round.json").write_text(json.dumps(made))


def capture(kept, program, made, findings):
    """Writes the world of each name that came to another end than foretold, with the ends that came, for the program's --world."""
    for name in {finding.name for finding in findings if not finding.is_true}:
        parts = [kept / f"{one}.part" for one in made["names"]]
        world = foretell(program, parts, "--group", name)
        world["came"] = [finding.came for finding in findings if finding.name == name]
        (kept / f"untrue-{name.replace('/', '-')}.json").write_text(json.dumps(world, default=sorted))


def judge(kept, program):
    """Foretells a round, prints what was untrue, and gives a finding for each name and run."""
    made = json.loads((kept / "round.json").read_text())
    if (kept / "plans.json").exists():
        findings = compare(with_plans(json.loads((kept / "plans.json").read_text())), made["names"], made["ends"])
    else:
        findings = compare(foretell(program, [kept / f"{name}.part" for name in made["names"]]), made["names"], made["ends"])
    if not (kept / "plans.json").exists():
        capture(kept, program, made, findings)
    print(f"round {made['seed']}", made["kinds"], made["programs"])
    print(told(findings), flush=True)
    return findings


def main():
    asked = argparse.ArgumentParser()
    asked.add_argument("seed", type=int, nargs="?")
    asked.add_argument("rounds", type=int, nargs="?", default=1)
    asked.add_argument("--devices", type=int, default=3)
    asked.add_argument("--runs", type=int, default=2)
    asked.add_argument("--keep", type=Path)
    asked.add_argument("--again", type=Path)
    asked.add_argument("--plans", action="store_true")
    asked = asked.parse_args()
    os.umask(0o022)
    with tempfile.TemporaryDirectory(prefix="storm-programs-") as room:
        audit, program = built(Path(room)) / "syncthing-audit", Path(room) / "foretell"
        subprocess.run(["go", "build", "-o", program, "syncthing-audit/forecast/cmd"], env=go_environment(Path(room)), check=True)
        total = []
        planner = program if asked.plans else None
        if asked.again:
            for kept in sorted(path.parent for path in asked.again.glob("*/round.json")):
                total += judge(kept, program)
        else:
            for seed in range(asked.seed, asked.seed + asked.rounds):
                kept = (asked.keep or Path(room)) / str(seed)
                run_round(seed, asked.devices, asked.runs, audit, kept, planner)
                total += judge(kept, program)
        print("all:", told(total))
    return any(not finding.is_true for finding in total)


def told(findings):
    """What a person reads of findings."""
    lines = [str(finding) for finding in findings if not finding.is_true]
    true = sum(finding.is_true for finding in findings)
    several = sum(finding.ends > 1 for finding in findings)
    walked = sum(not finding.is_all for finding in findings)
    lines.append(f"{true} of {len(findings)} ends of names foretold; {several} with more than one end; {walked} by walks alone")
    return "\n".join(lines)


if __name__ == "__main__":
    raise SystemExit(main())
