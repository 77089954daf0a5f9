#!/usr/bin/env python3
"""The audit of real Syncthing devices on loopback, of which one recorded a directory, which is missing on its disk since. Another one takes it before a
scan finds that, as the answer says that it may.

    auditor/test/taken.py
"""

import os

from behind import NEW, OLD, Behind
from exporting import main
from syncthing import wait_until


class TakenBeforeTheScan(Behind):
    """The first device put a directory in place of a file, and changed another one. Both are missing there since. The second one changed them, too, and
    earlier. The second one needs no bytes of the directory, and nobody has those of the file."""

    @classmethod
    def synchronise(cls):
        cls.now = 1700000000
        for name in ("directory", "file"):
            cls.put(cls.one, name, OLD, -1000)
        cls.scan_and_wait()

    @classmethod
    def change_one(cls):
        (cls.one.files / "directory").unlink()
        cls.put_in_place()
        cls.record(cls.one)

    @classmethod
    def change_two(cls):
        for name in ("directory", "file"):
            cls.put(cls.two, name, NEW, 0)
        cls.record(cls.two)
        cls.remove()

    @classmethod
    def put_in_place(cls):
        """Puts in place on the first device what it recorded."""
        (cls.one.files / "directory").mkdir()
        os.utime(cls.one.files / "directory", (cls.now + 500, cls.now + 500))
        cls.put(cls.one, "file", "changed on one", 500)

    @classmethod
    def remove(cls):
        (cls.one.files / "directory").rmdir()
        (cls.one.files / "file").unlink()

    def test_what_is_told_comes_so(self):
        self.assert_is_saved("directory", "file")
        self.start_before_a_scan()
        wait_until("the other device has taken the directory", (self.two.files / "directory").is_dir)
        wait_until("it asks for the file", lambda: "no such file" in str(self.two.api("GET", "folder/errors?folder=docs")))
        self.one.scan()
        wait_until("the file is kept, and the other one is a copy alone", lambda: all(self.is_over(device) for device in self.devices))
        self.stop()
        for device in self.devices:
            self.assertTrue(self.is_over(device))

    def assert_is_saved(self, *names):
        """Of what comes before a scan nothing is foretold, since devices scan as they start; the steps are made while Syncthing is stopped."""
        for name in names:
            self.assertIn(self.fates[name]["fate"], ("right", "lost", "depends", "changed"), name)
            self.assertIn("is mounted before Syncthing starts or scans there" if self.fates[name]["fate"] != "right" else "", " ".join(self.told.values()))

    def start_before_a_scan(self):
        """Starts both devices, the first one with its names in place again, which go once its first scan is over: so the other one takes what it recorded
        before a scan finds them missing."""
        self.put_in_place()
        self.one.start()
        self.one.scan()
        self.remove()
        self.two.start()

    def is_over(self, device):
        """Whether the directory is gone on a device, which has the copy of the file in its place, and the other file."""
        texts = self.texts_of(device)
        return not (device.files / "directory").exists() and [texts.get(key) for key in (("file", False), ("directory", True))] == [NEW, NEW]


class TakenFromOneThatOnlyReceives(TakenBeforeTheScan):
    """The first device only receives since. One file more is missing there, of which the third device has what the first one recorded; the second one changed
    it, too, and earlier. And the second one lacks a file that it changed, of which the first one lacks the old one."""

    names = ("one", "two", "three")

    @classmethod
    def synchronise(cls):
        for name in ("had", "gone"):
            cls.now = 1700000000
            cls.put(cls.one, name, OLD, -1000)
        super().synchronise()

    @classmethod
    def change_one(cls):
        cls.three = cls.devices[2]
        cls.put(cls.one, "had", "had on one", 500)
        cls.record(cls.one)
        for device in (cls.one, cls.three):
            device.start()
        wait_until("the third device has it", lambda: (cls.three.files / "had").read_text() == "had on one" and cls.one.is_in_step_with(cls.three))
        for device in (cls.one, cls.three):
            device.stop()
        super().change_one()

    @classmethod
    def change_two(cls):
        for name in ("had", "gone"):
            cls.put(cls.two, name, NEW, 0)
        super().change_two()
        (cls.two.files / "gone").unlink()
        for name in ("had", "gone"):
            (cls.one.files / name).unlink()
        cls.one.configure(cls.devices, kind="receiveonly")

    def test_what_is_told_comes_so(self):
        self.assert_is_saved("directory", "file", "had")
        self.start_before_a_scan()
        wait_until("the others have taken the directory", lambda: all((device.files / "directory").is_dir() for device in (self.two, self.three)))
        wait_until("they ask for the file", lambda: "no such file" in str(self.two.api("GET", "folder/errors?folder=docs")))
        self.one.scan()
        wait_until("the others keep the directory, and what they had as a copy alone", lambda: all(self.is_kept(device) for device in (self.two, self.three)))
        wait_until("the first device has the file, and not the directory", lambda: self.names_of(self.one) - {"had"} == {"file"})
        self.one.api("POST", "db/revert?folder=docs")
        wait_until("it has all", lambda: self.is_kept(self.one) and self.one.is_in_step_with(self.two))
        self.stop()
        for device in self.devices:
            self.assertTrue(self.is_kept(device))

    def start_before_a_scan(self):
        super().start_before_a_scan()
        self.three.start()

    def names_of(self, device):
        """The names on a device but for conflict copies and what is Syncthing's own."""
        return {path.name for path in device.files.iterdir() if ".sync-conflict-" not in path.name and not path.name.startswith(".")}

    def is_kept(self, device):
        """Whether a device has the directory, what others recorded, and copies of what they had."""
        texts = self.texts_of(device)
        return (self.names_of(device) == {"directory", "file", "had"} and (device.files / "directory").is_dir()
                and [texts.get(key) for key in (("file", False), ("had", False), ("had", True), ("directory", True))] == [NEW, "had on one", NEW, NEW])


if __name__ == "__main__":
    main()
