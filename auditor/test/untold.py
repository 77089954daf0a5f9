#!/usr/bin/env python3
"""The audit of two real Syncthing devices, of which one went back to an earlier moment, as after a power cut: index and files. And of two of which
one has heard of a change, and can't take it.

    auditor/test/untold.py
"""

import json
import shutil
import subprocess
import time

from exporting import Exporting, main
from syncthing import FOLDER, wait_until, wait_until_in_step

# As long as devices that are connected and idle are watched.
SECONDS_OF_WATCHING = 15


class WithEntries(Exporting):
    """Devices of which a person reads what is wrong."""

    def text(self):
        """What a person reads."""
        ran = self.on_homes("check", [device.home for device in self.devices], "--syncaudit", self.auditor)
        self.assertEqual(ran.returncode, 1, ran.stderr)
        return ran.stdout

    def entry(self):
        """What a person reads of the file, in one line."""
        return {entry.split("  (in ")[0]: " ".join(entry.split()) for entry in self.text().split("\n\n")}["text"]


class WentBack(WithEntries):
    """Devices of which the first one is put back to an earlier moment."""

    def keep(self):
        """What the first device has at this moment."""
        for name in ("home", "files"):
            shutil.copytree(self.one.home.parent / name, self.room / "kept" / name, symlinks=True)

    def go_back(self, *names):
        """Puts these of the first device back to that moment."""
        for name in names:
            shutil.rmtree(self.one.home.parent / name)
            (self.room / "kept" / name).rename(self.one.home.parent / name)

    def start_with_reset(self, device):
        """Starts a device as the answer says."""
        with device.log.open("ab") as log:
            device.process = subprocess.Popen([device.program, "serve", f"--home={device.home}", "--no-browser", "--no-restart", "--reset-deltas"],
                                              env=device.environment(), stdout=log, stderr=log)
        wait_until("it answers", device.answers)


class ChangesThatNobodyTells(WentBack):
    """The first device gives sequences anew that the second one has heard already."""

    def test_the_change_stays_untold_until_the_index_is_sent_anew(self):
        """Real devices show 'Up to Date' with two contents, and do what the answer says."""
        self.keep()
        self.start()
        for name in ("a", "b", "c"):
            (self.one.files / name).write_text(name)
        self.scan_and_wait()
        self.stop()
        self.go_back("home", "files")
        self.one.start()
        for name in ("text", "d", "e", "f"):
            (self.one.files / name).write_text("changed on one")
            self.one.scan()
        self.two.start()
        wait_until("the last change is told", (self.two.files / "f").exists)
        wait_until("both show 'Up to Date'", lambda: self.one.shows_up_to_date() and self.two.shows_up_to_date())
        time.sleep(SECONDS_OF_WATCHING)
        self.assertTrue(self.two.shows_up_to_date())
        self.assertEqual((self.two.files / "text").read_text(), "hello")
        self.stop()
        self.assertIn(f"{self.two.id[:7]} has heard of later changes of those who have it, and not of this one: stop Syncthing on {self.two.id[:7]}, and start it there once by ", self.entry())
        self.start_with_reset(self.two)
        self.one.start()
        wait_until("the change is told", lambda: (self.two.files / "text").read_text() == "changed on one")
        wait_until_in_step(self.one, self.two)
        self.stop()
        self.assertEqual(self.verdict(), "settled")


class AnOlderHome(WentBack):
    """The first device gets an older home, as from a backup, and has its present files. That was read no earlier than the second one's home."""

    def told(self, *words):
        """What a person or a program reads, with the status."""
        ran = self.on_homes("check", [device.home for device in self.devices], "--syncaudit", self.auditor, *words)
        return ran.returncode, ran.stdout

    def test_a_start_as_the_answer_says_has_all_told(self):
        """No part that is made anew helps, so nobody is told to make one. Once the index is sent anew, nothing is left that is never told."""
        self.keep()
        self.start()
        (self.one.files / "text").write_text("changed on one")
        (self.one.files / "empty").unlink()
        self.scan_and_wait()
        self.stop()
        self.go_back("home")
        status, text = self.told()
        self.assertEqual(status, 6, text)
        self.assertIn(f"first, on {self.one.id[:7]}: its index is older than what others know of it", text)
        self.assertIn("not audited: do what stands above behind 'first'", text)
        self.assertNotIn("make the part", text)
        self.start_with_reset(self.one)
        self.two.start()
        wait_until_in_step(self.one, self.two)
        self.stop()
        status, text = self.told("--json")
        folder, = json.loads(text)["folders"]
        self.assertEqual((status, folder["verdict"], folder["outlook"]["why_not_known"]), (0, "in-step", []), text)
        self.assertEqual([(device.files / "text").read_text() for device in self.devices], ["changed on one"] * 2)


class AChangeThatIsHeardAndNotTaken(WithEntries):
    """The second device's disk has too little room, by the folder's own limit."""

    def is_known(self):
        """Whether the second device has heard of all that changed on the first one, and can't take it."""
        errors = self.two.api("GET", f"folder/errors?folder={FOLDER}")["errors"]
        return self.two.knows_all_of(self.one) and any("insufficient space" in one["error"] for one in errors or [])

    def test_a_full_disk(self):
        """Nothing has to be told again: the answer says to see whether a disk is full, and once it isn't, the device takes the change."""
        config = (self.two.home / "config.xml").read_text()
        self.two.choose(minDiskFree=str(10 ** 18))
        self.start()
        (self.one.files / "text").write_text("changed on one")
        self.one.scan()
        wait_until("the change is known", self.is_known)
        self.stop()
        told = self.entry()
        self.assertNotIn("--reset-deltas", told)
        self.assertIn("whether a disk is full or refuses the name, and whether Syncthing's page lists 'Failed Items'", self.text())
        (self.two.home / "config.xml").write_text(config)
        self.start()
        wait_until_in_step(self.one, self.two)
        self.stop()
        self.assertEqual(self.verdict(), "settled")


if __name__ == "__main__":
    main()
