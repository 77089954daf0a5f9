#!/usr/bin/env python3
"""What an answer says that happens if nobody does anything, beside what happens: bad days of real devices, with rot, conflicts, a device that is
off, changes where a device only receives, deletions and renames at once. Each name comes to one of the ends that the answer tells.

    auditor/test/outlook.py
"""

import json
import os
import random
import subprocess
import tempfile
import time
import unittest
from pathlib import Path

from exporting import auditor, built, go_environment, main
from foretold import NOTHING, compare, ends_of, foretell, make_parts, real_places, shapes_of
from quick import Quick, come_to_an_end, node_of, remove, rest, start, stop, tree_of
from storm import Round
from syncthing import FOLDER

# Names of which nothing was said stay as they are.
KNOWN = ("lost", "depends", "changed", "deleted", "stays", "right")


def carry_out(plans, devices):
    """Carries out all plans on the disks of stopped devices."""
    for plan in plans:
        for name in plan["names"]:
            for step in plan["steps"]:
                path = devices[step["device"]].files / name
                if step["act"] == "touch":
                    os.utime(path)
                elif step["act"] == "copy":
                    remove(path)
                    path.parent.mkdir(parents=True, exist_ok=True)
                    subprocess.run(["cp", "-a", devices[step["from"]].files / name, path], check=True)
                elif step["act"] == "delete":
                    remove(path)


class Hub(Round):
    """A round of devices of which the first one shares the folder with all others, and these with that one alone."""

    def linked(self, device):
        return self.devices if device is self.devices[0] else [self.devices[0], device]


class BadDays(unittest.TestCase):
    """Bad days of three devices of several kinds and versions."""

    kind_of_round = Round

    @classmethod
    def setUpClass(cls):
        cls.room = tempfile.TemporaryDirectory(prefix="outlook-")
        cls.addClassCleanup(cls.room.cleanup)
        cls.program = built(Path(cls.room.name)) / "syncthing-audit"

    def outlook(self, devices):
        """What the answer says."""
        homes = [word for device in devices for word in ("--home", device.home)]
        ran = subprocess.run([self.program, "check", *homes, "--syncaudit", auditor(), "--json"], capture_output=True, text=True)
        self.assertEqual(ran.returncode, 1, ran.stderr)
        return json.loads(ran.stdout)["folders"][0]["outlook"]

    def day(self, seed):
        """Has a bad day, and gives what was said, and what came of it."""
        with tempfile.TemporaryDirectory(prefix="day-") as room:
            one = self.kind_of_round(seed, Path(room) / "room", 3)
            try:
                one.begin()
                one.rage()
                before = {device.name: tree_of(device.files) for device in one.devices}
                said = self.outlook(one.devices)
                ends = list(one.ends(1))
                one.versions = {device.id: [(name, node_of(path)) for name, path in device.all_versions()] for device in one.devices}
                return one, before, said, ends
            finally:
                stop(one.devices)

    def test_each_name_comes_to_an_end_that_was_told(self):
        seed = int(time.time())
        one, before, said, ends = self.day(seed)
        ids = [device.id for device in one.devices]
        fates = {fate["name"]: fate for fate in said["fates"]}
        self.assertEqual(len(fates), said["names"], "names are told twice, or aren't listed")
        self.assertEqual(said["names"], sum(said[fate] for fate in KNOWN) + said["not_known"])
        known = {*fates, *(name for disk in before.values() for name in disk)}
        untrue = []
        self.assertTrue(ends, "the devices came to no rest")
        for end in ends:
            shapes = [shapes_of(real_places(end[device.name], known)) for device in one.devices]
            for name in known:
                came = tuple(shape.get(name, NOTHING) for shape in shapes)
                untrue += self.untrue(name, came, fates.get(name), [before[device.name].get(name) for device in one.devices], ids)
        untrue += self.untrue_versions(fates, one.versions, ends[-1])
        print(f"NOTE: bad day {seed}, {one.kinds}: {len(fates)} names, " + ", ".join(f"{said[fate]} {fate}" for fate in (*KNOWN, "not_known")))
        self.assertGreater(len(fates) - said["not_known"], 20, said["why_not_known"])
        self.assertFalse(untrue, f"seed {seed}: " + "\n".join(untrue[:5]))

    def test_plans_lead_where_they_say(self):
        """All plans of a bad day are carried out, and each name has on all devices what its plan says."""
        seed = int(time.time()) + 1
        with tempfile.TemporaryDirectory(prefix="day-") as room:
            one = self.kind_of_round(seed, Path(room) / "room", 3)
            try:
                one.begin()
                one.rage()
                plans = self.outlook(one.devices)["plans"]
                carry_out(plans, {device.id: device for device in one.devices})
                ends = list(one.ends(1))
            finally:
                stop(one.devices)
        planned = [name for plan in plans if "then" in plan for name in plan["names"]]
        print(f"NOTE: planned day {seed}, {one.kinds}: {len(planned)} names with a plan, and {sum(plan['names_count'] for plan in plans) - len(planned)} to save")
        self.assertTrue(ends, "the devices came to no rest")
        for name in planned:
            came = {str(ends[0][device.name].get(name)) for device in one.devices}
            self.assertEqual(len(came), 1, f"seed {seed}, {name}: {came}, {[plan for plan in plans if name in plan['names']]}")
            self.assertNotEqual(came, {"None"}, f"seed {seed}, {name}")

    def untrue_versions(self, fates, versions, end):
        """What isn't among a device's old versions, though it was told to be there, and is on no disk."""
        standing, untrue, told = [node for disk in end.values() for node in disk.values()], [], 0
        for name, thing, one in ((name, thing, one) for name, fate in fates.items() for thing in fate.get("loses", []) for one in thing["old_versions"]):
            node = ["file", thing.get("size"), thing.get("content")]
            if one["have"] == "yes" and thing.get("size") and node not in standing:
                told += 1
                untrue += [] if (name, node) in versions[one["device"]] else [f"{name} isn't among the old versions of {one['device']}"]
        print(f"NOTE: of what is lost, {told} are among old versions")
        return untrue

    def untrue(self, name, came, fate, before, ids):
        """What is untrue of what was said of a name."""
        if fate is None:
            stays = tuple((tuple(node), ()) if node else NOTHING for node in before)
            return [] if came == stays else [f"{name} was at rest as {stays}, and came to {came}"]
        if fate["fate"] == "not-known":
            return []
        told = ends_of(fate, ids)
        return [] if came in told else [f"{name} ({fate['fate']}) came to {came}, and was told to come to {told}"]


class BadDaysOfAHub(BadDays):
    """The same where two of the devices hear of each other by the third one alone."""

    kind_of_round = Hub
    test_plans_lead_where_they_say = None


class Choices(BadDays):
    """What may be chosen for the whole folder on devices that only send or only receive: it comes to the end that is foretold."""

    test_each_name_comes_to_an_end_that_was_told = test_plans_lead_where_they_say = None
    kinds = {"alpha": "receiveonly", "beta": "sendreceive", "gamma": "sendonly"}

    @classmethod
    def setUpClass(cls):
        super().setUpClass()
        cls.foretell = Path(cls.room.name) / "foretell"
        subprocess.run(["go", "build", "-o", cls.foretell, "syncthing-audit/forecast/cmd"], env=go_environment(Path(cls.room.name)), check=True)

    def test_it_comes_as_foretold(self):
        seed = int(time.time())
        with tempfile.TemporaryDirectory(prefix="choice-") as room:
            one = Round(seed, Path(room) / "room", 3)
            one.kinds = self.kinds
            try:
                one.begin()
                one.rage()
                choice = random.Random(seed).choice(self.outlook(one.devices)["choices"])
                parts = make_parts(self.program, one.devices, Path(room))
                place, = [place for place, device in enumerate(one.devices) if device.id == choice["device"]]
                foretold = foretell(self.foretell, parts, "--choose", choice["act"], "--device", str(place))
                end = self.chosen(choice["act"], one, one.devices[place])
            finally:
                stop(one.devices)
        findings = compare(foretold, [device.name for device in one.devices], [end])
        print(f"NOTE: choice {seed}: {choice['act']} on {one.devices[place].name} changes {choice['names']} of {len(findings)}, "
              f"{choice['names_that_lose']} lose, {choice['not_known']} not known")
        self.assertGreater(choice["names"], 0)
        untrue = [str(finding) for finding in findings if not finding.is_true]
        self.assertFalse(untrue, f"seed {seed}, {choice['act']}: " + "\n".join(untrue))

    def chosen(self, act, one, device):
        """Carries out a choice, and gives what stands on all disks in the end."""
        if act == "send-and-receive":
            device.set_up(one.linked(device), "sendreceive")
        self.assertTrue(come_to_an_end(one.devices), "the devices came to no rest")
        if act != "send-and-receive":
            start(one.devices)
            rest(one.devices)
            device.api("POST", f"db/{act}?folder={FOLDER}")
            rest(one.devices)
            stop(one.devices)
        return {other.name: tree_of(other.files) for other in one.devices}


class Options(BadDays):
    """What two devices' options decide is told: how many conflict copies are kept, and that deletions are ignored."""

    test_each_name_comes_to_an_end_that_was_told = test_plans_lead_where_they_say = None

    def test_options_are_heeded(self):
        with tempfile.TemporaryDirectory(prefix="options-") as room:
            devices = [Quick(Path(room), name) for name in ("alpha", "beta")]
            try:
                said = self.changed(devices)
                self.assertTrue(come_to_an_end(devices))
            finally:
                stop(devices)
            fates = {fate["name"]: fate["fate"] for fate in said["fates"]}
            self.assertEqual(fates, {"both": "lost", "gone": "stays"})
            self.assertEqual([[path.name for path in sorted(device.files.iterdir()) if path.name[0] != "."] for device in devices], [["both"], ["both", "gone"]])
            self.assertEqual({device.files.joinpath("both").read_text() for device in devices}, {"of beta"})

    def changed(self, devices):
        """Has both devices change one file, and one of them delete another, and gives what the answer says."""
        for device in devices:
            device.set_up(devices, "sendreceive", maxConflicts="0", **({"ignoreDelete": "true"} if device.name == "beta" else {}))
        for name in ("both", "gone"):
            devices[0].files.joinpath(name).write_text(f"old {name}")
        start(devices)
        rest(devices)
        devices[0].files.joinpath("gone").unlink()
        devices[0].scan()
        rest(devices)
        stop(devices)
        for device in devices:
            device.files.joinpath("both").write_text(f"of {device.name}")
        return self.outlook(devices)


if __name__ == "__main__":
    main()
