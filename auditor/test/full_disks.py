#!/usr/bin/env python3
"""Nights of syncthing-audit watch on which a disk is full: that of the history, that of the temporary files, that of the page. It needs root, for small
disks in memory; it is skipped elsewhere.

    auditor/test/full_disks.py
"""

import os
import subprocess
import unittest

from exporting import main
from large_folders import rot
from watched import Nights

NO_SPACE = "no space left on device"
NEW = "\nnew: 00000/07.bin in docs on device1: StoreDiffers\n"
PAGE = 4096


class FullDisks(Nights):
    """Each night is told, by mail and by a command, with what couldn't be kept. The next one with room goes on where the last one was that had some: what is
    new is told as new by one night alone."""

    def setUp(self):
        super().setUp()
        self.disk, self.told = self.user / "disk", self.user / "told"
        self.disk.mkdir()
        mounted = subprocess.run(["mount", "-t", "tmpfs", "-o", "size=4m,mode=700", "tmpfs", self.disk], capture_output=True, text=True)
        if mounted.returncode:
            raise unittest.SkipTest(f"no disk in memory can be mounted: {mounted.stderr.strip()}")
        self.addCleanup(subprocess.run, ["umount", "-l", self.disk], check=True)
        self.undo = lambda: None
        self.addCleanup(lambda: self.undo())

    def fill(self, left):
        """Leaves so many bytes of the disk free."""
        about = os.statvfs(self.disk)
        self.free()
        with (self.disk / "filler").open("wb") as file:
            about = os.statvfs(self.disk)
            os.posix_fallocate(file.fileno(), 0, about.f_bavail * about.f_frsize - left)
        about = os.statvfs(self.disk)
        self.assertEqual(about.f_bavail * about.f_frsize, left)

    def free(self):
        (self.disk / "filler").unlink(missing_ok=True)

    def rots(self):
        self.undo = rot(self.room / "made/device1/files/00000/07.bin", 5)

    def mends(self):
        self.undo()
        self.undo = lambda: None

    def tonight(self, elements, **settings):
        """A night that also tells a command; both are told the same."""
        self.told.unlink(missing_ok=True)
        status, text, mails = self.night(f'{self.homes_alone}{elements}<notify command="cat >> {self.told}"/>', **settings)
        told = self.told.read_text() if self.told.exists() else ""
        self.assertEqual(mails.partition("\n\n")[2], told, self.printed)
        return status, text, mails

    def assert_told_once(self, mails, elements):
        """After a night on a full disk that told this, the rot is told as new once in all, and then its end."""
        status, _, later = self.tonight(elements)
        self.assertEqual((status, mails.count(NEW) + later.count(NEW)), (1, 1), f"{mails}\n---\n{later}")
        self.assertEqual(self.tonight(elements)[::2], (1, ""))
        self.mends()
        status, _, mails = self.tonight(elements)
        self.assertEqual((status, mails.count("\nmended: 00000/07.bin in docs on device1: StoreDiffers\n")), (0, 1), mails)
        self.assertEqual(self.tonight(elements)[::2], (0, ""))

    def test_the_disk_of_the_history(self):
        """The rot of such a night is told in full, though not as new; of a disk that has room for some of it, either all is kept or it is said."""
        for left in (0, 2 * PAGE, 16 * PAGE):
            state = self.disk / f"state{left}"
            elements = f'<state path="{state}"/>'
            self.assertEqual(self.tonight(elements)[0], 0, self.printed)
            self.rots()
            self.fill(left)
            for night in range(2 if left == 0 else 1):
                status, text, mails = self.tonight(elements)
                self.assertEqual((status, self.subjects(mails)[0][:11], "\n  device1: other bytes on the disk" in mails, "00000/07.bin" in text), (1, "NOT in step", True, True), mails)
                self.assertTrue(NO_SPACE in mails or NEW in mails, mails)
                if left == 0:
                    self.assertEqual((NEW in mails, "nothing can be kept for the next night, so it isn't known what is new, and it is told again: " in mails), (False, True), mails)
            self.free()
            with self.subTest(left=left):
                self.assert_told_once(mails, elements)

    def test_the_disk_of_the_temporary_files(self):
        """There is no answer then, which is told with why, and nothing is left on the disk."""
        place = self.disk / "temporary"
        place.mkdir()
        self.assertEqual(self.tonight("", TMPDIR=str(place))[0], 0, self.printed)
        self.rots()
        for left in (0, 2 * PAGE):
            self.fill(left)
            status, _, mails = self.tonight("", TMPDIR=str(place))
            self.assertIn(status, (2, 5))
            self.assertEqual((self.subjects(mails), NEW in mails), ([f"no answer, status {status}"], False), mails)
            self.assertRegex(mails, rf"can't be copied to {place} \(TMPDIR may name another directory\): it takes .* MB, and .* MB is free there|{NO_SPACE}")
            self.assertEqual(list(place.iterdir()), [])
        self.free()
        self.assert_told_once("", "")

    def test_the_disk_of_the_page(self):
        """The audit is told as ever. The page and the metrics stay those of the night before, whole, as long as the disk is full."""
        page, self.metrics = self.disk / "audit.html", self.disk / "metrics.prom"
        elements = f'<page path="{page}"/>'
        self.assertEqual(self.tonight(elements)[0], 0, self.printed)
        before = page.read_text(), self.metrics.read_text()
        self.rots()
        self.fill(0)
        for night in range(2):
            status, _, mails = self.tonight(elements)
            self.assertEqual((status, NEW in mails), (1, night == 0), mails)
            for what in ("page", "metrics"):
                self.assertRegex(mails, f"(?m)^the {what} can't be written: .*{NO_SPACE}$")
            self.assertEqual((page.read_text(), self.metrics.read_text()), before)
            self.assertEqual(sorted(path.name for path in self.disk.iterdir()), ["audit.html", "filler", "metrics.prom"])
        self.free()
        self.assertEqual(self.tonight(elements)[::2], (1, ""))
        self.assertIn("NOT in step: 1 name wrong", page.read_text())
        self.assertIn("syncthing_audit_status 1", self.metrics.read_text().splitlines())


if __name__ == "__main__":
    main()
