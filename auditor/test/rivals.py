#!/usr/bin/env python3
"""The audit of two real Syncthing devices on loopback that both changed the same names on their disks, which no scan has seen. What the answer
says that Syncthing does with that is what Syncthing does.

    auditor/test/rivals.py
"""

import os

from behind import NEW, OLD, Behind
from exporting import main
from rot import text_of
from syncthing import wait_until, wait_until_in_step

CHANGED, ROTTEN = "changed on two", "dlo"


class Rivals(Behind):
    """The second device changed all files; the first one deleted, touched or replaced them, or gave them another mode."""

    names_of_files = ("deleted", "touched", "mode", "rotten", "linked", "directory")

    @classmethod
    def synchronise(cls):
        cls.now = 1700000000
        for name in cls.names_of_files:
            cls.put(cls.one, name, OLD, -1000)
        cls.scan_and_wait()

    @classmethod
    def change_one(cls):
        files = cls.one.files
        for name in ("deleted", "linked", "directory"):
            (files / name).unlink()
        cls.put(cls.one, "touched", OLD, 1000)
        cls.put(cls.one, "rotten", ROTTEN, -1000)
        for name in ("mode", "rotten"):
            (files / name).chmod(0o600)
        (files / "linked").symlink_to("deleted")
        (files / "directory").mkdir()
        cls.put(cls.one, "directory/in", OLD, 0)
        os.utime(files / "directory", (cls.now, cls.now))

    @classmethod
    def change_two(cls):
        for name in cls.names_of_files:
            cls.put(cls.two, name, CHANGED, -2000 if name == "mode" else 500)

    def assert_stays(self):
        """A directory that isn't empty is replaced on neither device, as the answer says."""
        self.assertEqual(text_of(self.one.files / "directory/in"), OLD)
        self.assertTrue((self.two.files / "directory").is_file() or self.kind == "receiveonly")


class BothChanged(Rivals):
    """Both devices send and receive."""

    def test_what_is_told_comes_so(self):
        self.run_both(lambda: all(self.have_all(device) for device in self.devices))
        self.stop()
        for device in self.devices:
            self.assert_texts(device, deleted=[CHANGED], touched=[OLD, CHANGED], mode=[OLD, CHANGED], rotten=[CHANGED, ROTTEN], linked=[CHANGED])
            self.assertFalse((device.files / "linked").is_symlink())
        self.assert_stays()
        self.assert_came(self.fates, *self.names_of_files)

    def have_all(self, device):
        """Whether a device has what the other one sends of the files, and the conflict copies."""
        copies = {path.name.partition(".")[0] for path in device.files.glob("*.sync-conflict-*")}
        return copies >= {"touched", "mode", "rotten"} and [text_of(device.files / name) for name in ("deleted", "linked")] == [CHANGED] * 2


class BothChangedAndOneReceives(Rivals):
    """The second device only receives."""

    kind = "receiveonly"

    def test_what_is_told_comes_so(self):
        """It takes what the first one's scan records, and keeps its own as a copy; only a deletion doesn't go before its change."""
        self.run_both(lambda: {path.name.partition(".")[0] for path in self.two.files.glob("*.sync-conflict-*")} >= {
            "touched", "mode", "rotten", "linked", "directory"})
        wait_until("all is taken", lambda: self.two.api("GET", "db/status?folder=docs")["needTotalItems"] == 0)
        self.stop()
        self.assert_texts(self.two, deleted=[CHANGED], touched=[OLD, CHANGED], mode=[OLD, CHANGED], rotten=[ROTTEN, CHANGED], directory_in=[OLD])
        self.assert_texts(self.one, touched=[OLD], mode=[OLD], rotten=[ROTTEN], directory_in=[OLD])
        self.assertEqual(os.readlink(self.two.files / "linked"), "deleted")
        self.assert_came(self.fates, *self.names_of_files)


class BehindWithAnotherMode(Behind):
    """The second device was off while the first one deleted a file, and changed another one, which has an old time. On its disk both have another mode."""

    @classmethod
    def synchronise(cls):
        cls.now = 1700000000
        for name in ("changed", "gone"):
            cls.put(cls.one, name, OLD, -1000)
        cls.scan_and_wait()

    @classmethod
    def change_one(cls):
        cls.put(cls.one, "changed", NEW, -2000)
        (cls.one.files / "gone").unlink()
        cls.record(cls.one)

    @classmethod
    def change_two(cls):
        for name in ("changed", "gone"):
            (cls.two.files / name).chmod(0o600)

    def test_the_mode_is_a_change(self):
        """So the old file goes over the newer one, and what was deleted is back, as the answer says."""
        self.run_both(lambda: text_of(self.one.files / "changed") == text_of(self.one.files / "gone") == OLD
                      and all(list(device.files.glob("changed.sync-conflict-*")) for device in self.devices))
        self.stop()
        for device in self.devices:
            self.assert_texts(device, changed=[OLD, NEW], gone=[OLD])
        self.assert_came(self.fates, "changed", "gone")


class MissingOnTwoThatChangedIt(Behind):
    """Two devices recorded a change of two files each, which are missing on both of them since. A third device took the first one's change of one file, which is the
    newest."""

    names = ("one", "two", "three")
    missing = ("taken", "not-taken")

    @classmethod
    def synchronise(cls):
        cls.now, cls.three = 1700000000, cls.devices[2]
        for name in cls.missing:
            cls.put(cls.one, name, OLD, -1000)
        cls.scan_and_wait()

    @classmethod
    def change_one(cls):
        cls.put(cls.one, "taken", NEW, -500)
        for device in (cls.one, cls.three):
            device.start()
        cls.one.scan()
        wait_until("the third device has it", lambda: text_of(cls.three.files / "taken") == NEW and cls.three.is_in_step_with(cls.one))
        for device in (cls.one, cls.three):
            device.stop()
        cls.put(cls.one, "not-taken", NEW, -500)
        cls.record(cls.one)

    @classmethod
    def change_two(cls):
        for name, seconds in (("taken", -600), ("not-taken", -100)):
            cls.put(cls.two, name, f"{CHANGED}, {name}", seconds)
        cls.record(cls.two)
        for device in (cls.one, cls.two):
            for name in cls.missing:
                (device.files / name).unlink()

    def test_what_is_told_comes_so(self):
        self.run_both(lambda: not any((device.files / "not-taken").exists() for device in self.devices))
        wait_until_in_step(*self.devices)
        self.stop()
        self.assert_came(self.fates, *self.missing)
        kept = self.texts_of(self.three)
        self.assertIn(kept, ({}, {("taken", False): NEW}))
        for device in self.devices:
            self.assertEqual(self.texts_of(device), kept)


if __name__ == "__main__":
    main()
