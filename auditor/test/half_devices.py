#!/usr/bin/env python3
"""Real Syncthing devices on loopback whose disks are walked on themselves, while an observer is told their records over the wire.

    auditor/test/half_devices.py
"""

import json
import os
import shlex
import subprocess
import sys
import time

from answers import SCHEMA, STATUS_MISSING
from exporting import main, run
from observed import Observing
from over_wire import SECONDS_OF_A_RESCAN
from syncthing import FOLDER, SECONDS_TO_WAIT, wait_until, wait_until_in_step


class Halves(Observing):
    """Devices that run, and whose disks are walked between an observer's two looks."""

    __test__ = False
    is_configured = False  # whether each walk reads its device's config.xml

    def setUp(self):
        super().setUp()
        self.start()
        self.addCleanup(self.stop)
        wait_until_in_step(*self.devices)

    def walk(self, line, device):
        """Walks a device's disks by the command that the observer printed."""
        words = shlex.split(line)
        self.assertEqual(words[0], "syncthing-audit-disk")
        words = [word.replace("=DIR", f"={device.files}") for word in words[1:]]
        if self.is_configured:
            words += ["--config", device.home / "config.xml"]
        ran = run([self.program, "disk", *words], cwd=self.room / "walks")
        self.assertEqual((ran.returncode, ran.stdout), (0, ""), ran.stderr)

    def begin(self, walked, *words, others=()):
        """An observer that waits for the walks of these devices, and asks the others for their bytes; and the commands that it prints."""
        walks = self.room / "walks"
        walks.mkdir(exist_ok=True)
        for old in walks.iterdir():
            old.unlink()
        devices = [word for device in walked for word in (self.address(device), "--disk", walks / f"{device.home.parent.name}.disk")]
        process = subprocess.Popen([self.program, "observe", "--home", self.room / "observer", "--folder", FOLDER, "--syncaudit", self.auditor,
                                    "--still", "0", *words, *devices, *map(self.address, others)],
                                   stdout=subprocess.PIPE, stderr=subprocess.PIPE, text=True)
        self.addCleanup(process.communicate)
        self.addCleanup(process.kill)
        lines = []
        while len(lines) < len(walked):
            line = process.stderr.readline()
            self.assertTrue(line, "the observer ended")
            if "syncthing-audit-disk" in line:
                lines.append(line.strip())
        return process, lines

    def halves(self, walked, *words, others=()):
        """What an observer answers where the disks of these devices are walked."""
        process, lines = self.begin(walked, *words, others=others)
        for line, device in zip(lines, walked, strict=True):
            self.walk(line, device)
        output, told = process.communicate(timeout=SECONDS_TO_WAIT)
        return process.returncode, output, told

    def answer(self, walked, *words, others=()):
        """The same as JSON, where nothing at a device changes meanwhile."""
        before = [self.state(device) for device in self.devices]
        status, output, told = self.halves(walked, "--json", *words, others=others)
        self.assertTrue(output, told)
        checked = run([sys.executable, SCHEMA], input=output)
        self.assertIn(checked.returncode, (0, STATUS_MISSING), checked.stdout)
        time.sleep(SECONDS_OF_A_RESCAN)
        self.assertEqual(before, [self.state(device) for device in self.devices])
        return status, json.loads(output)

    def of_homes(self):
        """What 'run' says of the same devices."""
        ran = run([self.program, "run", *(device.home for device in self.devices), "--folder", FOLDER, "--observer", self.observer.id, "--still", "0",
                   "--syncaudit", self.auditor, "--json"])
        self.assertTrue(ran.stdout, ran.stderr)
        return json.loads(ran.stdout)

    def plant(self):
        """Plants rot under its time on the second device, and changes that no scan has taken, until the case is over."""
        files = self.devices[1].files
        large, text, link, empty = (files / name for name in ("folder/large", "text", "link", "empty"))
        good, about = large.read_bytes(), large.stat()
        times = {path: path.stat().st_mtime_ns for path in (text, files / "folder")}

        def put(data):
            large.write_bytes(data)
            os.utime(large, ns=(about.st_atime_ns, about.st_mtime_ns))
        put(b"rot" + good[3:])
        self.addCleanup(put, good)
        text.write_text("jello")
        self.addCleanup(lambda: (text.write_text("hello"), os.utime(text, ns=(times[text],) * 2)))
        link.unlink()
        link.symlink_to("elsewhere")
        self.addCleanup(lambda: (link.unlink(), link.symlink_to("folder/large")))
        (files / "new").write_text("new")
        self.addCleanup((files / "new").unlink)
        mode = empty.stat().st_mode
        empty.chmod(0o600)
        self.addCleanup(empty.chmod, mode)

    @staticmethod
    def found(told):
        """What an answer finds: the faults of names, what waits, and other permissions."""
        folder = told["folders"][0]
        return {"verdict": told["verdict"], "names": folder["names"],
                "files": [(one["name"], [(fault["device"], fault["cause"]) for fault in one["faults"]], sorted(one["have_recorded"])) for one in folder["files"]],
                "in motion": [(one["name"], [(at["device"], at["why"], at.get("waits")) for at in one["devices"]])
                              for one in folder["live"]["in_motion"]],
                "groups": [(one["cause"], one["first_names"]) for one in folder["groups"]]}


class DiskHalves(Halves):
    """By their disk halves and what an observer is told, devices answer as their homes do."""

    __test__ = True

    def test_all_is_in_step(self):
        status, told = self.answer(self.devices)
        folder = told["folders"][0]
        self.assertEqual((status, told["verdict"], folder["firm"], folder["names"]), (6, "in-step-as-far-as-audited", "not-known", 6))
        self.assertEqual([(one["kind"], one["why"]) for one in folder["not_known_firm"]],
                         [("busy", "whether a scan is under way, and whether the folder only receives, isn't seen over the wire, and its disks were walked "
                                   "without --config")] * 3)
        self.assertEqual([one["over_the_wire"]["unseen"] for one in folder["devices"]], [["kinds", "scans"]] * 3)
        self.assertEqual([one["over_the_wire"]["directories_and_symlinks"] for one in folder["devices"]], [0] * 3)

    def test_all_is_firm(self):
        """What is configured, and that Syncthing is idle, is told with the disks: nothing is left that isn't seen."""
        self.is_configured = True
        status, told = self.answer(self.devices)
        folder = told["folders"][0]
        self.assertEqual((status, told["verdict"], folder["firm"], folder["names"]), (0, "in-step", "firm", 6))
        self.assertEqual([one["over_the_wire"]["unseen"] for one in folder["devices"]], [[]] * 3)

    def test_what_is_wrong_is_what_homes_say(self):
        self.plant()
        homes = self.found(self.of_homes())
        self.assertEqual([one[0] for one in homes["in motion"]], ["link", "new", "text"])
        self.assertEqual([one[0] for one in homes["files"]], ["empty", "folder/large"])
        status, told = self.answer(self.devices)
        self.assertEqual((status, self.found(told)), (1, homes))

    def test_which_blocks_differ(self):
        """The disks say that a file has other bytes, and the observer asks for that file which blocks these are."""
        self.plant()
        status, told = self.answer(self.devices)
        blocks = {(one["name"], fault["device"]): (fault["blocks"]["count"], fault["blocks"]["ranges"])
                  for one in told["folders"][0]["files"] for fault in one["faults"] if "blocks" in fault}
        self.assertEqual((status, blocks), (1, {("folder/large", self.two.id): (1, [[0, 0]])}))

    def test_a_mixed_cluster(self):
        """One stopped device by its home, one by its disks and the wire, one by the wire alone."""
        one, two, three = self.devices
        self.plant()
        one.stop()
        status, output, told = self.halves([two], "--into", self.room / "parts", others=[three])
        self.assertEqual((status, output), (0, ""), told)
        parts = [*(self.room / "parts").iterdir(), self.room / "walks/two.disk", self.part(one)]
        self.assertEqual(len(parts), 4)
        ran = run([self.program, "check", "--json", "--syncaudit", self.auditor, "--folder", FOLDER, *parts])
        self.assertEqual(ran.returncode, 1, ran.stderr)
        told = json.loads(ran.stdout)
        homes = self.found(self.of_homes_of_two())
        self.assertEqual(self.found(told), homes)
        unseen = {one["device"]: one["over_the_wire"]["unseen"] for one in told["folders"][0]["devices"] if "over_the_wire" in one}
        self.assertEqual(unseen[two.id], ["kinds", "scans"])
        self.assertIn("times", unseen[three.id])
        self.assertNotIn(one.id, unseen)

    def of_homes_of_two(self):
        """What 'run' says once the stopped device runs again, with nothing on its disk changed."""
        self.devices[0].start()
        wait_until("all are connected", lambda: all(one.is_in_step_with(other) for one in self.devices for other in self.devices if one is not other))
        return self.of_homes()


if __name__ == "__main__":
    main()
