#!/usr/bin/env python3
"""Nights of syncthing-audit watch over real Syncthing devices on loopback, which go on running all the while.

    auditor/test/watched_live.py
"""

import os

from exporting import main, run
from live_looks import Live, rot
from syncthing import FOLDER


class WatchedLive(Live):
    """Three devices in step that run."""

    names = ("one", "two", "three")

    @classmethod
    def setUpClass(cls):
        super().setUpClass()
        cls.told = cls.room / "told"
        cls.pids = cls.started()

    @classmethod
    def started(cls):
        """The processes of the devices, and when Syncthing says that it was started."""
        return [(device.process.pid, device.process.poll(), device.api("GET", "system/status")["startTime"]) for device in cls.devices]

    def night(self, devices=None):
        """A night; gives its status, and the subject and the text of what it told, if it told something."""
        places = "".join(f'<device place="{device.home}"/>' for device in devices or self.devices)
        configuration = self.room / "watch.xml"
        configuration.write_text(f'<watch>{places}<state path="{self.room / self.id()}"/><notify command="(echo &quot;$SUBJECT&quot;; cat) > {self.told}"/></watch>')
        self.told.unlink(missing_ok=True)
        ran = run([self.program, "watch", configuration, "--still", "0", "--syncaudit", self.auditor], env={**os.environ, "HOME": str(self.room)})
        subject, _, text = self.told.read_text().partition("\n") if self.told.exists() else ("", "", "")
        self.assertEqual(self.started(), self.pids, "a device was stopped or started anew")
        return ran.returncode, subject, text

    def test_nights_stop_nothing(self):
        """Each device is the process that it was. What rots is told once, and its end once, beside what changes."""
        status, subject, text = self.night()
        self.assertEqual((status, subject), (0, "first night: in step"), text)
        self.assertEqual(self.night(), (0, "", ""))
        with rot(self.two.files / "folder" / "large", 1000):
            status, subject, text = self.night()
            self.assertEqual((status, subject), (1, "NOT in step, with news"))
            self.assertIn(f"new: folder/large in {FOLDER} on {self.two.id[:7]}: StoreDiffers\n", text)
            self.assertEqual(self.night(), (1, "", ""))
            (self.one.files / "made tonight").write_text("no scan has seen it")
            try:
                self.assertEqual(self.night(), (1, "", ""))
            finally:
                (self.one.files / "made tonight").unlink()
        status, subject, text = self.night()
        self.assertEqual((status, subject, f"mended: folder/large in {FOLDER} on {self.two.id[:7]}: StoreDiffers\n" in text), (0, "in step, with news", True), text)
        self.assertEqual(self.night(), (0, "", ""))

    def test_an_edit_at_night_silences_nothing(self):
        """What no scan has seen is in motion, and the rest is answered: rot in it is told all the same."""
        self.night()
        (self.one.files / "text").write_text("edited at night")
        try:
            with rot(self.two.files / "folder" / "large", 1000):
                status, _, text = self.night()
        finally:
            self.scan_and_wait()
        self.assertEqual((status, f"new: folder/large in {FOLDER} on {self.two.id[:7]}: StoreDiffers\n" in text), (1, True), text)
        self.assertIn("in motion: 1, NOT audited, of which no scan has seen: 1 is changed\n", text)


if __name__ == "__main__":
    main()
