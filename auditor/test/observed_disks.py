#!/usr/bin/env python3
"""Real Syncthing devices on loopback on whose disks something changed that no scan has taken: what an observer sees of it, and what it doesn't.

    auditor/test/observed_disks.py
"""

import os
import shutil

from exporting import main
from observed import Observing
from syncthing import wait_until_in_step

BLOCK = 128 << 10
LARGE = 300_000_000
BLOCK_OF_LARGE = 256 << 10


class ObservedDisks(Observing):
    """Each fault on a disk is told with its name and device, and nothing is told of the names beside it."""

    __test__ = True
    names = ("one", "two")

    @classmethod
    def synchronise(cls):
        files = cls.devices[0].files
        for name in ("rot", "edit", "append", "truncation", "emptied", "missing", "good"):
            (files / name).write_bytes(os.urandom(3 * BLOCK + 5))
        (files / "grown").touch()
        (files / "times").write_text("times")
        (files / "mode").write_text("mode")
        (files / "directory").mkdir()
        (files / "points").symlink_to("good")
        pattern = os.urandom(4 * BLOCK_OF_LARGE)  # its few blocks are fetched once
        (files / "large").write_bytes((pattern * (LARGE // len(pattern) + 1))[:LARGE])
        super().synchronise()

    def setUp(self):
        super().setUp()
        self.start()
        self.addCleanup(self.stop)
        wait_until_in_step(*self.devices)
        self.files = self.devices[1].files

    def change(self, name, how, keeps_time=True):
        """Changes a file, under its time or not, until the case is over."""
        path = self.files / name
        about, copy = path.stat(), self.room / f"copy of {name}"
        shutil.copyfile(path, copy)

        def put_back():
            shutil.copyfile(copy, path)
            os.utime(path, ns=(about.st_atime_ns, about.st_mtime_ns))
        self.addCleanup(put_back)
        how(path)
        if keeps_time:
            os.utime(path, ns=(about.st_atime_ns, about.st_mtime_ns))

    @staticmethod
    def rot(offset):
        """What changes a bit at an offset."""
        def how(path):
            with path.open("r+b") as file:
                file.seek(offset)
                byte = file.read(1)[0]
                file.seek(offset)
                file.write(bytes([byte ^ 1]))
        return how

    @staticmethod
    def append(path):
        with path.open("ab") as file:
            file.write(b"more")

    def test_faults_on_a_disk(self):
        self.change("rot", self.rot(BLOCK + 7))
        self.change("large", self.rot(LARGE - 1))
        self.change("edit", lambda path: path.write_bytes(b"edited" + path.read_bytes()[6:]), keeps_time=False)
        self.change("append", self.append)
        self.change("grown", self.append)
        self.change("truncation", lambda path: os.truncate(path, BLOCK + 1))
        self.change("emptied", lambda path: os.truncate(path, 0))
        missing = self.files / "missing"
        missing.rename(self.room / "missing")
        self.addCleanup((self.room / "missing").rename, missing)
        back = self.files / "doomed"
        self.assertFalse(back.exists())
        back.write_text("back")
        self.addCleanup(back.unlink)
        status, told = self.observed()
        folder, two = told["folders"][0], self.devices[1].id
        found = {one["name"]: [(fault["device"], fault["cause"], fault["blocks"]["ranges"]) for fault in one["faults"]] for one in folder["files"]}
        last = (LARGE - 1) // BLOCK_OF_LARGE
        self.assertEqual((status, found), (1, {"rot": [(two, "other-bytes", [[1, 1]])], "edit": [(two, "other-bytes", [[0, 0]])],
                                               "large": [(two, "other-bytes", [[last, last]])]}))
        self.assertEqual({one["name"]: [(at["device"], at["why"]) for at in one["devices"]] for one in folder["live"]["in_motion"]},
                         {name: [(two, ["unscanned"])] for name in ("append", "grown", "truncation", "emptied", "missing", "doomed")})

    def test_what_is_not_seen(self):
        """Times, permissions, directories, symlinks and new files aren't seen: the answer says so, and calls none of them in step."""
        times, mode, points = (self.files / name for name in ("times", "mode", "points"))
        before = times.stat().st_mtime_ns
        os.utime(times, ns=(1, 1))
        self.addCleanup(os.utime, times, ns=(before, before))
        bits = mode.stat().st_mode
        mode.chmod(0o600)
        self.addCleanup(mode.chmod, bits)
        (self.files / "directory").rmdir()
        self.addCleanup((self.files / "directory").mkdir)
        points.unlink()
        points.symlink_to("elsewhere")
        self.addCleanup(lambda: (points.unlink(), points.symlink_to("good")))
        (self.files / "new").write_text("new")
        self.addCleanup((self.files / "new").unlink)
        status, told = self.observed()
        folder = told["folders"][0]
        self.assertEqual((status, told["verdict"], folder["firm"], folder["files"], folder["live"]["in_motion"]),
                         (6, "in-step-as-far-as-audited", "not-known", [], []))
        for one in folder["devices"]:
            self.assertEqual(one["over_the_wire"]["unseen"], ["directories", "kinds", "permissions", "scans", "symlinks", "times", "unscanned"])
            self.assertEqual(one["over_the_wire"]["directories_and_symlinks"], 4)


if __name__ == "__main__":
    main()
