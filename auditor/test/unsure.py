#!/usr/bin/env python3
"""Folders of real Syncthing devices that are in step under one version, and that Syncthing changes all the same.

    auditor/test/unsure.py
"""

import os
import re

from exporting import Exporting, main
from syncthing import FOLDER, wait_until
from unasked import OTHER, add_folder

LATER = 1700000000


class Unsure(Exporting):
    """What a person reads, in one line, and the status."""

    def told(self, *words):
        ran = self.on_homes("check", [device.home for device in self.devices], "--syncaudit", self.auditor, *words)
        return ran.returncode, " ".join(ran.stdout.split())

    def assert_not_known(self, why):
        """The folder isn't known to be firm, for this reason."""
        status, text = self.told()
        self.assertEqual(status, 6, text)
        self.assertIn(f"{FOLDER}: in step as far as audited, not known to be firm; ", text)
        self.assertRegex(text, f"not known to be firm: {FOLDER} on {self.two.id[:7]}: {re.escape(why)}")


class LinkedFiles(Unsure):
    """Two devices that share two folders. On the second one a file of each has the same bytes."""

    @classmethod
    def configure(cls):
        super().configure()
        for device in cls.devices:
            add_folder(device, OTHER, "")

    def other(self, device):
        """The file's name in the other folder."""
        return device.home.parent / OTHER / "text"

    def test_another_folder_changes_the_time(self):
        """Nobody touches the firm folder. A time that comes to the other one is set in both, and goes to all devices."""
        self.assertIn("in step and firm", self.told("--folder", FOLDER)[1])
        self.start()
        self.addCleanup(self.stop)
        self.other(self.one).write_text("hello")
        os.utime(self.other(self.one), ns=((self.two.files / "text").stat().st_mtime_ns,) * 2)
        self.one.api("POST", f"db/scan?folder={OTHER}")
        wait_until("the other folder has it", self.other(self.two).exists)
        wait_until("nothing of it is under way", lambda: self.two.api("GET", f"db/status?folder={OTHER}")["state"] == "idle")
        self.stop()
        self.other(self.two).unlink()
        os.link(self.two.files / "text", self.other(self.two))
        self.assert_not_known("1 name stands for a file that has a name elsewhere, too (a hard link)")
        self.start()
        self.two.api("POST", f"db/scan?folder={OTHER}")
        os.utime(self.other(self.one), (LATER, LATER))
        self.one.api("POST", f"db/scan?folder={OTHER}")
        wait_until("the file of the firm folder has the time", lambda: int((self.two.files / "text").stat().st_mtime) == LATER)
        self.two.scan()
        wait_until("so has that of the other device", lambda: int((self.one.files / "text").stat().st_mtime) == LATER)


class ToIgnore(Unsure):
    """Two devices, of which the second one ignores a directory since its last scan, by patterns that take other names in."""

    @classmethod
    def synchronise(cls):
        super().synchronise()
        (cls.one.files / "bare").mkdir()
        cls.scan_and_wait()

    def test_the_next_scan_marks_it(self):
        self.assertIn("in step and firm", self.told()[1])
        (self.two.files / ".stignore").write_text("!*.bin\n/bare\n")
        self.assert_not_known("1 directory in its index that .stignore ignores by now")
        self.start()
        self.addCleanup(self.stop)
        self.two.scan()
        self.assertTrue(self.two.api("GET", f"db/file?folder={FOLDER}&file=bare")["local"]["ignored"])


class OwnData(Unsure):
    """Two devices. The second one has its configuration in the folder."""

    @classmethod
    def stop(cls):
        """Moves the home into the folder, and the database out of it, once the device is stopped for the first time."""
        super().stop()
        inside = cls.two.files / "home"
        if not inside.exists():
            cls.two.data = cls.room / "two" / "data"
            cls.two.data.mkdir()
            for one in [*cls.two.home.glob("index-*"), *cls.two.home.glob("*.lock")]:
                one.rename(cls.two.data / one.name)
            cls.two.home.rename(inside)
            cls.two.home = inside

    @classmethod
    def device_numbers(cls):
        return {}

    def told(self, *words):
        ran = self.on_homes("check", [self.one.home, self.two.home], "--data", self.two.data, "--syncaudit", self.auditor, *words)
        return ran.returncode, " ".join(ran.stdout.split())

    def test_a_setting_changes_a_firm_folder(self):
        """Nobody touches the folder. Syncthing writes its configuration, and a scan sends that to the other device."""
        self.start()
        self.addCleanup(self.stop)
        self.two.scan()
        wait_until("both have the home", lambda: (self.one.files / "home" / "config.xml").exists() and self.one.shows_up_to_date())
        self.stop()
        self.two.start()
        self.two.scan()
        self.two.stop()
        before = (self.two.home / "config.xml").read_bytes()
        self.assertRegex(self.told("--leave-out", "changing")[1], f"not known to be firm: {FOLDER} on {self.two.id[:7]}: Syncthing writes and deletes in its directory for Syncthing's own config.xml, .*, too")
        self.start()
        self.two.api("PATCH", "config/options", {"reconnectionIntervalS": 7})
        wait_until("the configuration is written", lambda: (self.two.home / "config.xml").read_bytes() != before)
        self.two.scan()
        wait_until("the other device has it", lambda: (self.one.files / "home" / "config.xml").read_bytes() == (self.two.home / "config.xml").read_bytes())


if __name__ == "__main__":
    main()
