#!/usr/bin/env python3
"""Real Syncthing devices on loopback that an observer audits while they run, with nothing installed on them.

    auditor/test/observed.py
"""

import json
import os
import shutil
import sys
import time
from types import SimpleNamespace

from answers import SCHEMA, STATUS_MISSING
from exporting import Exporting, main, run
from over_wire import SECONDS_OF_A_RESCAN, OverTheWire
from syncthing import FOLDER, free_ports, wait_until, wait_until_in_step


class Observing(Exporting):
    """Devices that share a folder with an observer."""

    __test__ = False
    names = ("one", "two", "three")
    state = OverTheWire.state

    @classmethod
    def configure(cls):
        ran = run([cls.program, "observe", "--init", "--home", cls.room / "observer"], check=True)
        cls.observer = SimpleNamespace(id=ran.stdout.strip(), listen_port=next(free_ports))
        for device in cls.devices:
            device.configure([*cls.devices, cls.observer], kind=cls.kinds.get(device.home.parent.name, "sendreceive"))

    def address(self, device):
        """A device as the observer is told of it."""
        return f"{device.id}@tcp://127.0.0.1:{device.listen_port}"

    def add(self, device, **options):
        """Adds the observer on a device that runs, as its page does."""
        device.api("POST", "config/devices", {**device.api("GET", "config/defaults/device"), "deviceID": self.observer.id, "name": "observer", **options})
        folder = device.api("GET", f"config/folders/{FOLDER}")
        device.api("PUT", f"config/folders/{FOLDER}", {**folder, "devices": [*folder["devices"], {"deviceID": self.observer.id, "introducedBy": "",
                                                                                                 "encryptionPassword": ""}]})

    def observe(self, *words, devices=None):
        """What an observer answers of devices that run, of all of them without a list."""
        return run([self.program, "observe", "--home", self.room / "observer", "--folder", FOLDER, "--syncaudit", self.auditor, "--still", "0",
                    *words, *map(self.address, devices or self.devices)])

    def observed(self, *words, devices=None):
        """What it answers, as JSON, where nothing at the devices changes meanwhile."""
        before = [self.state(device) for device in self.devices]
        ran = self.observe("--json", *words, devices=devices)
        self.assertTrue(ran.stdout, ran.stderr)
        checked = run([sys.executable, SCHEMA], input=ran.stdout)
        self.assertIn(checked.returncode, (0, STATUS_MISSING), checked.stdout)
        time.sleep(SECONDS_OF_A_RESCAN)
        self.assertEqual(before, [self.state(device) for device in self.devices])
        return ran.returncode, json.loads(ran.stdout)


class Observed(Observing):
    """An observer finds the rotten file and its device, and says what it doesn't see. Nothing at a device changes."""

    __test__ = True

    def setUp(self):
        super().setUp()
        self.start()
        self.addCleanup(self.stop)
        wait_until_in_step(*self.devices)

    def test_in_step_as_far_as_seen(self):
        status, told = self.observed()
        folder = told["folders"][0]
        self.assertEqual((status, told["verdict"], folder["firm"], folder["names"]), (6, "in-step-as-far-as-audited", "not-known", 6))
        self.assertEqual({one["kind"] for one in folder["not_known_firm"]}, {"over-the-wire"})
        self.assertEqual([one["over_the_wire"]["directories_and_symlinks"] for one in folder["devices"]], [2, 2, 2])
        self.assertEqual(folder["live"]["not_heard_of"], [])
        ran = self.observe()
        self.assertRegex(ran.stdout, r"^docs: in step as far as seen over the wire, not known to be firm; ")
        self.assertEqual(ran.returncode, 6)

    def test_addresses_are_kept(self):
        """Once devices were reached, their ids are enough, and so is the folder."""
        words = [self.program, "observe", "--home", self.room / "observer", "--folder", FOLDER, "--syncaudit", self.auditor, "--still", "0", "--records", "--json"]
        shutil.rmtree(self.room / "observer" / "indexes", ignore_errors=True)
        (self.room / "observer" / "addresses.json").unlink(missing_ok=True)
        self.assertEqual(run(words).returncode, 3)
        kept = self.room / "observer" / "addresses.json"
        wait_until("all devices were reached", lambda: self.observe("--records").returncode == 6 and all(device.id in kept.read_text() for device in self.devices))
        for ids in [[], [device.id for device in self.devices]]:
            ran = run([*words, *ids])
            self.assertEqual(ran.returncode, 6, ran.stderr)
            self.assertEqual(json.loads(ran.stdout)["folders"][0]["names"], 6)
        self.assertEqual((self.room / "observer" / "addresses.json").stat().st_mode & 0o077, 0)

    def test_rot_and_what_waits_for_a_scan(self):
        self.rot()
        text = self.two.files / "text"
        self.addCleanup(text.write_text, text.read_text())
        os.truncate(text, 2)
        status, told = self.observed()
        folder = told["folders"][0]
        self.assertEqual((status, told["verdict"]), (1, "not-in-step"))
        self.assert_rotten(folder)
        self.assertEqual([(one["name"], [(at["device"], at["why"]) for at in one["devices"]]) for one in folder["live"]["in_motion"]],
                         [("text", [(self.two.id, ["unscanned"])])])

    def test_devices_that_connect_by_themselves(self):
        before = [self.state(device) for device in self.devices]
        ran = run([self.program, "observe", "--home", self.room / "observer", "--folder", FOLDER, "--syncaudit", self.auditor, "--still", "0", "--json",
                   "--listen", f"tcp://127.0.0.1:{self.observer.listen_port}", *(device.id for device in self.devices)])
        self.assertEqual(ran.returncode, 6, ran.stderr)
        self.assertEqual(json.loads(ran.stdout)["folders"][0]["names"], 6)
        time.sleep(SECONDS_OF_A_RESCAN)
        self.assertEqual(before, [self.state(device) for device in self.devices])

    def test_parts_over_the_wire_and_of_a_stopped_device(self):
        """Parts of both kinds join: the rot on a device that is asked over the wire is found, with the stopped device's good copy."""
        self.rot()
        self.one.stop()
        ran = self.observe("--into", self.room / "parts", devices=self.devices[1:])
        self.assertEqual((ran.returncode, ran.stdout), (0, ""), ran.stderr)
        parts = [*(self.room / "parts").iterdir(), self.part(self.one)]
        self.assertEqual(len(parts), 3)
        ran = run([self.program, "check", "--json", "--syncaudit", self.auditor, "--folder", FOLDER, *parts])
        told = json.loads(ran.stdout)
        self.assertEqual(ran.returncode, 1, ran.stderr)
        self.assert_rotten(told["folders"][0])
        self.assertEqual({one["device"] for one in told["folders"][0]["devices"] if "over_the_wire" in one}, {self.two.id, self.three.id})
        self.assertEqual(told["left_out"], [])

    def test_an_observer_is_no_device_whose_part_is_asked_for(self):
        self.stop()
        told = self.refused()
        self.assertIn(self.observer.id, told)
        lines = self.check("--observer", self.observer.id).stdout.splitlines()
        self.assertEqual(lines[0], "settled")
        self.assertIn(f"observer, not asked: folder {FOLDER}, device {self.observer.id}", lines)
        self.assertEqual(self.check("--strict", "--observer", self.two.id).returncode, 2)

    def rot(self):
        """Changes a byte on the second device's disk under its time, until the case is over."""
        path = self.two.files / "folder" / "large"
        good, about = path.read_bytes(), path.stat()

        def put(data):
            path.write_bytes(data)
            os.utime(path, ns=(about.st_atime_ns, about.st_mtime_ns))
        put(b"rot" + good[3:])
        self.addCleanup(put, good)

    def assert_rotten(self, folder):
        """Checks that this rot is found, and nothing else."""
        self.assertEqual([(one["name"], [(fault["device"], fault["cause"], fault["blocks"]["ranges"]) for fault in one["faults"]], set(one["have_recorded"]))
                          for one in folder["files"]],
                         [("folder/large", [(self.two.id, "other-bytes", [[0, 0]])], {self.one.id, self.three.id})])

    @property
    def three(self):
        return self.devices[2]


if __name__ == "__main__":
    main()
