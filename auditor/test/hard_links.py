#!/usr/bin/env python3
"""Two names of one file on a real device (hard links): a time that Syncthing sets at one of them is set at both, so a scan takes the other one for
changed.

    auditor/test/hard_links.py
"""

import json
import os
import subprocess
import tempfile
import time
import unittest
from pathlib import Path

from exporting import auditor, built, main
from quick import Quick, rest, start, stop
from syncthing import FOLDER

OLD, EDITED = "the same bytes", "what was edited"


class HardLinks(unittest.TestCase):
    """On the first device two names are one file. The second device touched the one, after the third one changed the other, which nobody heard of yet.
    No conflict copies are kept."""

    @classmethod
    def setUpClass(cls):
        cls.room = tempfile.TemporaryDirectory(prefix="hard-links-")
        cls.addClassCleanup(cls.room.cleanup)
        cls.program = built(Path(cls.room.name)) / "syncthing-audit"

    def setUp(self):
        room = tempfile.TemporaryDirectory(prefix="hard-links-")
        self.addCleanup(room.cleanup)
        self.devices = self.one, self.two, self.three = [Quick(Path(room.name), name) for name in ("alpha", "beta", "gamma")]
        self.addCleanup(lambda: stop(self.devices))
        for device in self.devices:
            device.set_up(self.devices, "sendreceive", maxConflicts="0")
        (self.one.files / "touched").write_text(OLD)
        os.link(self.one.files / "touched", self.one.files / "edited")
        self.run_all(self.devices)
        (self.three.files / "edited").write_text(EDITED)
        self.run_all([self.three])
        time.sleep(1.1)
        os.utime(self.two.files / "touched")
        self.run_all([self.two])

    def run_all(self, devices):
        """Has devices run until nothing changes any more."""
        start(devices)
        rest(devices)
        for device in devices:
            device.scan()
        rest(devices)
        stop(devices)

    def come_to_the_end(self):
        """Has the first two devices run by themselves, and then all."""
        self.run_all([self.one, self.two])
        self.run_all(self.devices)

    def told(self):
        """What the answer says of each name, and its text."""
        homes = [word for device in self.devices for word in ("--home", device.home)]
        words = [self.program, "check", *homes, "--folder", FOLDER, "--syncaudit", auditor()]
        text = subprocess.run(words, capture_output=True, text=True)
        self.assertEqual(text.returncode, 1, text.stderr)
        folder, = json.loads(subprocess.run([*words, "--json"], capture_output=True, text=True).stdout)["folders"]
        return {fate["name"]: fate["fate"] for fate in folder["outlook"]["fates"]}, " ".join(text.stdout.split())

    def edited(self):
        """What all devices have of the edited file."""
        return [(device.files / "edited").read_text() for device in self.devices]

    def test_what_is_lost_is_not_told_to_come_right(self):
        fates, text = self.told()
        self.assertEqual(fates, {"edited": "not-known", "touched": "not-known"}, text)
        self.assertIn(f"(a hard link), so that a time which is set at one is set at both ({self.one.id[:7]}); to know it, put a copy of the file", text)
        self.assertNotIn("proved", text)
        self.come_to_the_end()
        self.assertEqual(self.edited(), [OLD] * 3)

    def test_a_copy_in_the_place_of_the_link_makes_it_known(self):
        """As a person is told."""
        subprocess.run(["cp", "-p", self.one.files / "edited", self.one.room / "copy"], check=True)
        (self.one.room / "copy").rename(self.one.files / "edited")
        fates, text = self.told()
        self.assertEqual(fates, {"edited": "right", "touched": "right"}, text)
        self.come_to_the_end()
        self.assertEqual(self.edited(), [EDITED] * 3)


if __name__ == "__main__":
    main()
