#!/usr/bin/env python3
"""The audit of two real Syncthing devices on loopback that both changed one file.

    auditor/test/conflict.py

It installs nothing, and says what is missing.
"""

import os
import time

from exporting import Exporting, main
from syncthing import wait_until, wait_until_in_step


class Conflict(Exporting):
    """Both devices changed one file while they were off."""

    def test_a_resolved_conflict_is_settled_with_its_copy(self):
        (self.one.files / "text").write_text("changed on one")
        (self.two.files / "text").write_text("changed on two")
        self.assertEqual(self.verdict("--names", "text")[:25], "not settled: StoreDiffers")
        fates = self.foretold()
        self.start()
        wait_until("both devices have the conflict copy", self.have_copies)
        wait_until_in_step(self.one, self.two)
        self.stop()
        self.assert_came(fates, "text")
        self.assertEqual(self.verdict("--names", "text"), "settled")
        document = self.document("--names", "text")
        for share in document["cut"]["folders"][0]["devices"]:
            texts = {one["name"][:18]: one["text"] for one in share["store"]}
            self.assertEqual(sorted(texts), ["text", "text.sync-conflict"])
            self.assertEqual(sorted(texts.values()), ["changed on one", "changed on two"])

    def have_copies(self):
        """Whether both devices hold a conflict copy, after a scan of each."""
        self.one.scan()
        self.two.scan()
        return all(list(device.files.glob("text.sync-conflict-*")) for device in (self.one, self.two))


class ConflictOfSymlinks(Exporting):
    """Both devices gave a symlink another target, and recorded that, while the other one was off."""

    def test_no_copy_is_kept(self):
        """The answer says so, and real Syncthing keeps none: one of the two targets is gone."""
        for device, target in ((self.one, "text"), (self.two, "empty")):
            (device.files / "link").unlink()
            (device.files / "link").symlink_to(target)
            device.start()
            device.scan()
            device.stop()
        told = " ".join(self.on_homes("check", [device.home for device in self.devices], "--syncaudit", self.auditor).stdout.split())
        self.assertIn("in conflict: has one change of it, and lacks another", told)
        fates = self.foretold()
        self.assertEqual(fates["link"]["fate"], "lost")
        self.start()
        wait_until("both have one target", lambda: os.readlink(self.one.files / "link") == os.readlink(self.two.files / "link"))
        wait_until_in_step(self.one, self.two)
        self.stop()
        self.assert_came(fates, "link")
        for device in self.devices:
            self.assertEqual(list(device.files.glob("*.sync-conflict-*")), [])


class ConflictOfAConflictCopy(Exporting):
    """Both devices changed a file, of which there is a conflict copy already, and another file's conflict copy."""

    older, copy = "text.sync-conflict-20200101-000000-AAAAAAA", "other.sync-conflict-20200101-000000-AAAAAAA.txt"

    @classmethod
    def synchronise(cls):
        super().synchronise()
        for name in (cls.older, cls.copy):
            (cls.one.files / name).write_text("kept")
        cls.scan_and_wait()

    def test_no_copy_is_kept(self):
        """The answer says so, and real Syncthing keeps none. Of the file it keeps one, and deletes the older copy, since 'Max Conflicts' is 1: so the answer foretells
        nothing of that copy either, which is at rest."""
        for place, device in enumerate(self.devices):
            device.choose(maxConflicts="1")
            for name in ("text", self.copy):
                (device.files / name).write_text(f"changed on {place}")
                os.utime(device.files / name, (time.time() + place,) * 2)
        fates = self.foretold()
        self.assertEqual([fates[name]["fate"] in ("lost", "not-known") for name in ("text", self.copy)], [True, True])
        self.assertEqual(fates[self.older]["why"], "conflict-copies", "the older copy is at rest, and goes")
        self.start()
        wait_until("the older copy is deleted", self.is_older_deleted)
        wait_until_in_step(self.one, self.two)
        self.stop()
        for device in self.devices:
            texts = {path.name: path.read_text() for path in device.files.glob("*.sync-conflict-*")}
            self.assertEqual(texts.pop(self.copy), "changed on 1")
            self.assertEqual(list(texts.values()), ["changed on 0"])
            self.assertTrue(next(iter(texts)).startswith("text.sync-conflict-"))

    def is_older_deleted(self):
        """Whether neither device has the older copy, after a scan of each."""
        for device in self.devices:
            device.scan()
        return not any((device.files / self.older).exists() for device in self.devices)


if __name__ == "__main__":
    main()
