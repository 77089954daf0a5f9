#!/usr/bin/env python3
"""The audit of two real Syncthing devices, of which one keeps its old versions inside the folder.

    auditor/test/writers.py
"""

import os

from exporting import IN_STEP, Exporting, main
from syncthing import wait_until

YEARS_AGO = 1600000000


class OldVersionsInside(Exporting):
    """A directory of the folder is where one device keeps old versions, and removes those of more than a day ago."""

    @classmethod
    def synchronise(cls):
        super().synchronise()
        (cls.one.files / "old").mkdir()
        (cls.one.files / "old" / "letter").write_text("letter")
        os.utime(cls.one.files / "old" / "letter", (YEARS_AGO, YEARS_AGO))
        cls.scan_and_wait()

    def test_what_is_cleaned_is_deleted_everywhere(self):
        """Nobody touches a file of a firm folder, and real Syncthing deletes one on all devices. So the folder isn't known to be firm."""
        self.assertIn(IN_STEP, self.told(0))
        self.two.keep_versions("trashcan", "old", seconds=5, cleanoutDays="1")
        self.assertIn(f"not known to be firm: docs on {self.two.id[:7]}: Syncthing writes and deletes in its directory for the old versions of docs, too. ",
                      self.told(6))
        self.start()
        wait_until("old versions are cleaned", lambda: not (self.two.files / "old" / "letter").exists())
        self.two.scan()
        wait_until("the other device has deleted it, too", lambda: not (self.one.files / "old" / "letter").exists())
        self.stop()

    def told(self, status):
        """What a person reads with this status, in one line."""
        ran = self.on_homes("check", [device.home for device in self.devices], "--syncaudit", self.auditor)
        self.assertEqual(ran.returncode, status, ran.stdout + ran.stderr)
        return " ".join(ran.stdout.split())


if __name__ == "__main__":
    main()
