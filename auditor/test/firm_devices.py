#!/usr/bin/env python3
"""Firm folders of real Syncthing devices on loopback: what keeps a folder from being firm, and that what is firm stays.

    auditor/test/firm_devices.py

$SECONDS_OF_STANDING says how long firm devices are let run, which is 20 where it isn't set.
"""

import json
import os
import time

from exporting import IN_STEP, STAND_IN, Exporting, main, put_replies, run, without_devices
from syncthing import FOLDER, wait_until, wait_until_in_step

SECONDS_OF_STANDING = float(os.environ.get("SECONDS_OF_STANDING", 20))
# Between two scans, and about between two restarts.
SECONDS_BETWEEN_SCANS = 2
SCANS_BETWEEN_RESTARTS = 3
FIRM = [f"firm: {FOLDER}"]


class Firm(Exporting):
    """Three devices in step."""

    names = ("one", "two", "three")

    @classmethod
    def setUpClass(cls):
        super().setUpClass()
        cls.three = cls.devices[2]

    def answer(self, *words):
        """What an audit of all homes writes for a person or a program."""
        ran = self.on_homes("check", [device.home for device in self.devices], "--syncaudit", self.auditor, *words)
        self.assertEqual(ran.returncode, 0, ran.stderr)
        return ran

    def assert_firm(self):
        """All devices are in step, and firm."""
        self.assertEqual((self.verdict(), self.firmness), ("settled", FIRM))

    def test_in_step_is_firm(self):
        self.assert_firm()
        ran = self.answer()
        self.assertIn(f"{FOLDER}: {IN_STEP}; 6 names", ran.stdout)
        self.assertNotIn("merge versions", ran.stdout + ran.stderr)
        self.assertEqual(json.loads(self.answer("--json").stdout)["firm"], "firm")

    def same_bytes_on_each(self, name):
        """Two devices record the same bytes by themselves, each while the other one is off."""
        for device in (self.one, self.two):
            (device.files / name).write_text("the same")
            device.start()
            device.scan()
            device.stop()

    def test_the_same_bytes_under_concurrent_versions_are_settled_and_not_firm(self):
        (self.three.files / "twice").write_text("the same")
        self.same_bytes_on_each("twice")
        self.three.start()
        self.three.scan()
        self.three.stop()
        self.assertEqual(self.verdict(), "settled")
        self.assertEqual(len(self.firmness), 2)
        for line in self.firmness:
            self.assertRegex(line, rf"^not firm: VersionDiffers {FOLDER} twice on \d+$")
        ran = self.answer()
        self.assertIn(f"{FOLDER}: in step, not firm; 7 names", ran.stdout)
        self.assertIn(f"1 name keeps {FOLDER} from being firm\n  twice: ", ran.stdout)
        self.assertEqual(ran.stdout.count("has it under a concurrent version"), 2)
        for told in ("Syncthing may still exchange records", "this project's own peers"):
            self.assertIn(told, " ".join(ran.stdout.split()))
        read = json.loads(self.answer("--json").stdout)
        folder, = read["folders"]
        self.assertEqual((read["verdict"], read["firm"], folder["names_not_firm"]), ("in-step", "not-firm", 1))
        self.assertEqual({one["reason"] for one in folder["not_firm"][0]["devices"]}, {"VersionDiffers"})
        self.assert_sum()
        self.start()
        wait_until("all devices have taken one version", lambda: len({self.version(device, "twice") for device in self.devices}) == 1)
        wait_until_in_step(*self.devices)
        self.stop()
        self.assert_firm()

    def assert_sum(self):
        """The sum of the answers to exported documents is what 'check' says; one that isn't whole is refused."""
        into = self.room / "documents"
        self.assertEqual(self.export("--into", into).returncode, 0)
        put_replies(into)
        ran = run([self.program, "sum", into, "--lines"])
        self.assertEqual((ran.returncode, without_devices(ran.stdout.splitlines())), (0, without_devices(self.check().stdout.splitlines())), ran.stderr)
        reply, = into.glob("cut-*.reply")
        reply.write_text(reply.read_text().split("not firm: ")[0])
        ran = run([self.program, "sum", into, "--lines"])
        self.assertEqual((ran.returncode, ran.stdout), (2, ""))
        self.assertIn("isn't all there", ran.stderr)

    def test_an_older_program_is_too_old(self):
        older = self.room / "older"
        older.write_text(f'#!/bin/sh\nOLDER=1 exec "{STAND_IN}" "$@"\n')
        older.chmod(0o755)
        ran = self.on_homes("check", [device.home for device in self.devices], "--syncaudit", older)
        self.assertEqual((ran.returncode, ran.stdout), (127, ""))
        self.assertIn(f"{older} is too old to answer: it doesn't know 'rows ", ran.stderr)

    @staticmethod
    def version(device, name):
        """The version of a device's own record."""
        return tuple(device.api("GET", f"db/file?folder={FOLDER}&file={name}")["local"]["version"])

    def state(self):
        """What stands in each stopped device's index and on its disk, with times, permissions and sequences; and in views, the
        records of other devices."""
        made = []
        for device in self.devices:
            head, *lines = map(json.loads, self.shown(device))
            folder, = head["folders"]
            made.append((folder["max"], folder["views"], lines))
            made.append({path.relative_to(device.files): (path.lstat().st_mtime_ns, path.lstat().st_mode, path.is_file() and path.read_bytes())
                         for path in sorted(device.files.rglob("*")) if ".stfolder" not in path.parts})
        return made

    def test_what_is_firm_stays(self):
        """Firm devices run with scans and restarts. Nothing changes on a disk or in an index."""
        self.assert_firm()
        before = self.state()
        self.start()
        wait_until_in_step(*self.devices)
        end, scans = time.monotonic() + SECONDS_OF_STANDING, 0
        while time.monotonic() < end:
            for device in self.devices:
                device.scan()
            scans += 1
            if scans % SCANS_BETWEEN_RESTARTS == 0:
                device = self.devices[scans // SCANS_BETWEEN_RESTARTS % len(self.devices)]
                device.stop()
                device.start()
                wait_until_in_step(*self.devices)
            time.sleep(SECONDS_BETWEEN_SCANS)
        wait_until_in_step(*self.devices)
        self.stop()
        self.assertGreater(scans, SCANS_BETWEEN_RESTARTS)
        self.assertEqual(self.state(), before)
        self.assert_firm()


if __name__ == "__main__":
    main()
