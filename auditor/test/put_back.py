#!/usr/bin/env python3
"""The steps of an answer on real Syncthing devices, followed from the top: after each of them all good bytes still stand somewhere, and whoever
stops after some step has what the steps before it promise.

    auditor/test/put_back.py
"""

import json
import os
import shutil
import subprocess
import tempfile
import time
import unittest
from pathlib import Path

from exporting import auditor, built, main
from outlook import carry_out
from quick import Quick, come_to_an_end, remove, rest, start, stop
from rot import text_of

# What users wrote last, by names. Of 'grown' an empty file is recorded, and its bytes were put back under the recorded time.
GOOD = {"old change": "changed", "emptied": "good emptied", "cut": "good cut", "grown": "good grown", "full/one": "good one", "full/two": "good two",
        "replaced/one": "good three"}


def put(device, name, text, seconds):
    """A text stands in a file, modified so many seconds from a moment."""
    path = device.files / name
    path.parent.mkdir(exist_ok=True)
    path.write_text(text)
    os.utime(path, (1700000000 + seconds,) * 2)


class PutBack(unittest.TestCase):
    """Three devices, stopped. The second one was harmed: files were emptied and cut short, and directories are gone. One file is rotten there while the
    first device has a newer change of it, and the third one, which was off, an older one."""

    @classmethod
    def setUpClass(cls):
        os.umask(0o022)
        room = tempfile.TemporaryDirectory(prefix="put-back-")
        cls.addClassCleanup(room.cleanup)
        cls.program = built(Path(room.name)) / "syncthing-audit"
        cls.saved, cls.room = Path(room.name) / "saved", Path(room.name) / "devices"
        cls.room.mkdir()
        cls.devices = [Quick(cls.room, name) for name in ("one", "two", "three")]
        cls.addClassCleanup(stop, cls.devices)
        for device in cls.devices:
            device.set_up(cls.devices, "sendreceive")
        cls.harm()

    @classmethod
    def harm(cls):
        """Makes the devices' state."""
        one, two, three = cls.devices
        for name, text in GOOD.items():
            put(one, name, {"old change": "oldest", "grown": ""}.get(name, text), -3000)
        start(cls.devices)
        rest(cls.devices)
        stop(cls.devices)
        put(one, "old change", "binary", 0)
        start([one, two])
        rest([one, two])
        stop([one, two])
        for device, text, seconds in ((one, "changed", -1000), (three, "an older", -2000)):
            put(device, "old change", text, seconds)
            start([device])
            stop([device])
        put(two, "old change", "rotten", 0)
        put(two, "emptied", "", -2900)
        put(two, "cut", "goo", -3000)
        put(two, "grown", GOOD["grown"], -3000)
        for name in ("full", "replaced"):
            remove(two.files / name)
        (two.files / "replaced").write_text("a file")

    def outlook(self):
        """What the answer says that happens, and what to do."""
        homes = [word for device in self.devices for word in ("--home", device.home)]
        ran = subprocess.run([self.program, "check", *homes, "--syncaudit", auditor(), "--json"], capture_output=True, text=True)
        self.assertEqual(ran.returncode, 1, ran.stderr)
        return json.loads(ran.stdout)["folders"][0]["outlook"]

    def steps(self):
        """The steps of all plans, one by one."""
        return [{**plan, "steps": [step]} for plan in self.outlook()["plans"] for step in plan["steps"]]

    def follow(self, steps):
        """Makes these steps. No good bytes are on no disk after any of them."""
        by_id = {device.id: device for device in self.devices}
        for step in steps:
            if step["steps"][0]["act"] == "save":
                for name in step["names"]:
                    to = self.saved / name
                    to.parent.mkdir(parents=True, exist_ok=True)
                    subprocess.run(["cp", "-a", by_id[step["steps"][0]["device"]].files / name, to], check=True)
            carry_out([step], by_id)
            self.assertEqual(self.missing(), set(), step)

    def missing(self):
        """The good texts that stand nowhere, on no device and in nothing that was saved."""
        there = {text_of(path) for root in (self.saved, *(device.files for device in self.devices)) for path in root.rglob("*") if path.is_file()}
        return set(GOOD.values()) - there

    def follow_scripts(self, _):
        """Fills in and runs the scripts of an answer, in the order of their names."""
        homes = [word for device in self.devices for word in ("--home", device.home)]
        scripts = self.saved / "scripts"
        ran = subprocess.run([self.program, "check", *homes, "--syncaudit", auditor(), "--script", scripts], capture_output=True, text=True)
        self.assertEqual(ran.returncode, 1, ran.stderr)
        for path in sorted(scripts.iterdir()):
            device = next(device for device in self.devices if path.name.endswith(f"-{device.id[:7]}.sh"))
            path.write_text("\n".join(self.filled(line, device) for line in path.read_text().split("\n")))
            subprocess.run(["sh", path], check=True, stdout=subprocess.DEVNULL)
            self.assertEqual(self.missing(), set(), path)

    def filled(self, line, on):
        """A line of a script, with what it asks for filled in."""
        named = line.split("=")[0]
        if named == "stopped":
            return "stopped=yes"
        if named == "aside":
            return f"aside='{self.saved / 'aside' / on.id[:7]}'"
        if named.startswith("folder_"):
            return f"{named}='{on.files}'"
        if named.startswith("source_"):
            device = next(device for device in self.devices if f" of {device.id[:7]} is" in line)
            return f"{named}='{device.files}'"
        return line

    def try_(self, steps, *groups, follow=None):
        """Makes these steps, has groups of devices run one after another, gives what each device has then of the good names, and puts all back."""
        kept = self.room.with_name("kept")
        subprocess.run(["cp", "-a", self.room, kept], check=True)
        try:
            (follow or self.follow)(steps)
            for group in groups:
                start(group)
                rest([device for device in self.devices if device.process])
            stop(self.devices)
            self.assertTrue(come_to_an_end(self.devices), "they came to no rest")
            return [{name: text_of(device.files / name) if (device.files / name).is_file() else None for name in GOOD} for device in self.devices]
        finally:
            stop(self.devices)
            shutil.rmtree(self.room)
            kept.rename(self.room)

    def test_all_steps_bring_all_back(self):
        """The device with the newest change starts last: then an older one had time to fetch rotten bytes."""
        one, two, three = self.devices
        for came in self.try_(self.steps(), [two, three], [one]):
            self.assertEqual(came, GOOD)
        self.assertNotIn("without_steps", self.outlook(), "what nobody can tell the right bytes of is saved by a step")
        self.assertEqual({text_of(path) for path in self.saved.rglob("*") if path.is_file()}, {"rotten", "goo", "good grown", "a file"})

    def test_scripts_bring_all_back(self):
        one, two, three = self.devices
        for came in self.try_(None, [two, three], [one], follow=self.follow_scripts):
            self.assertEqual(came, GOOD)

    def test_what_has_its_steps_is_right_if_the_next_is_never_made(self):
        """All run after some of the steps, each time after others."""
        steps = self.steps()
        count = 1 + int(time.time()) % (len(steps) - 1)
        done = {name for step in steps[:count] for name in step["names"]} - {name for step in steps[count:] for name in step["names"]}
        came = self.try_(steps[:count])
        print(f"NOTE: {count} of {len(steps)} steps, {len(done)} names have all of theirs")
        for name in GOOD:
            if name in done or name.split("/")[0] in done and name != "grown":
                self.assertEqual([device[name] for device in came], [GOOD[name]] * 3, (name, steps[:count]))


if __name__ == "__main__":
    main()
