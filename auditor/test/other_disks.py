#!/usr/bin/env python3
"""The audit of a device whose folder is on a disk that takes names for one if they differ by upper and lower case alone. It needs root and ntfs-3g.

    auditor/test/other_disks.py
"""

import json
import os
import shutil
import subprocess
import unittest

from exporting import Exporting, main
from syncthing import FOLDER, wait_until

NEEDED = ("mkntfs", "lowntfs-3g")


class IgnoresCase(Exporting):
    """Two devices. The second one's folder is on a disk that doesn't tell upper from lower case."""

    @classmethod
    def setUpClass(cls):
        if os.geteuid() or not all(map(shutil.which, NEEDED)):
            raise unittest.SkipTest("it needs root and ntfs-3g")
        super().setUpClass()

    @classmethod
    def configure(cls):
        super().configure()
        image = cls.room / "disk"
        with image.open("wb") as file:
            file.truncate(64 << 20)
        subprocess.run(["mkntfs", "-F", "-q", image], check=True, capture_output=True)
        shutil.rmtree(cls.two.files)
        cls.two.files.mkdir()
        subprocess.run(["lowntfs-3g", image, cls.two.files, "-o", "ignore_case,windows_names"], check=True)
        cls.addClassCleanup(subprocess.run, ["umount", cls.two.files], check=True)
        cls.addClassCleanup(cls.stop)
        (cls.two.files / ".stfolder").mkdir()

    def fates(self):
        """The status, why it isn't known what becomes of names, and on which devices that is. Modes, which this disk doesn't keep, are passed over."""
        ran = self.on_homes("check", [device.home for device in self.devices], "--syncaudit", self.auditor, "--json")
        told = json.loads(ran.stdout)["folders"][0]["outlook"]
        whys = {fate["name"]: fate.get("why") for fate in told["fates"] if fate["name"].lower() in ("photo", "other")}
        return ran.returncode, whys, [why.get("devices") for why in told["why_not_known"]]

    def test_a_second_name_is_never_taken(self):
        """The answer doesn't foretell it, and Syncthing doesn't take it. What has a name of its own comes."""
        for name in ("Photo", "photo", "other"):
            (self.one.files / name).write_text(name)
        told = 1, {"Photo": "case", "photo": "case", "other": None}, [[self.two.id]]
        self.assertEqual(self.fates(), told)
        self.start()
        self.one.scan()
        wait_until("the second device fails at a name", lambda: self.two.knows_all_of(self.one) and self.two.api("GET", f"folder/errors?folder={FOLDER}")["errors"])
        wait_until("the other name is there", (self.two.files / "other").exists)
        self.stop()
        self.assertEqual(len([name for name in os.listdir(self.two.files) if name.lower() == "photo"]), 1)
        status, whys, devices = self.fates()
        whys.pop("other", None)
        self.assertEqual((status, set(whys.values()), devices), (1, {"case"}, [[self.two.id]]))


if __name__ == "__main__":
    main()
