#!/usr/bin/env python3
"""The audit of real devices of Syncthing 1.29 whose scans look at owners or extended attributes: rot that such a scan sees, and what keeps
these when a file is mended as the answer says.

    auditor/test/attributes.py
"""

import os
import subprocess
import unittest

import late_rot
from exporting import main
from late_rot import KEPT, LOST
from rot import Rotten, text_of
from syncthing import FOLDER, programs, version_of, wait_until

COLOUR = "user.colour"


class WhereAttributesAreScanned(Rotten):
    """A device whose scans look at extended attributes, too. They hash each file whose inode changed."""

    options = {"two": {"sendXattrs": "true"}}

    @staticmethod
    def scanners():
        """The programs of the devices that scan attributes."""
        return programs()

    @classmethod
    def setUpClass(cls):
        if any(version_of(one).startswith("syncthing v1.19") for one in cls.scanners()):
            raise unittest.SkipTest("Syncthing 1.19 doesn't scan attributes")
        super().setUpClass()

    @classmethod
    def configure(cls):
        super().configure()
        for name, device in zip(cls.names, cls.devices):
            device.choose(**cls.options.get(name, {}))

    def rot(self, name):
        """Bytes of the same size and time come in place of a file's on the second device."""
        path = self.two.files / name
        times = path.stat()
        path.write_bytes(path.read_bytes().swapcase())
        os.utime(path, ns=(times.st_atime_ns, times.st_mtime_ns))

    def assert_told(self, *told):
        """Other bytes of the same size and time are wrong, and a person reads this of them."""
        self.rot("text")
        self.assertEqual(self.verdict(), self.fault("StoreDiffers", "text", self.two))
        text = " ".join(self.answer()[1].split())
        for one in told:
            self.assertIn(one, text)


class RotWhereAttributesAreScanned(WhereAttributesAreScanned):
    """Other bytes of the same size and time."""

    def test_a_scan_may_see_them_and_does(self):
        self.assert_told("size and time are as recorded (modified",
                         "it isn't known what happens: owners or extended attributes are scanned, which the forecast leaves out",
                         f"to have again what {self.two.id[:7]} recorded, copy it from")
        self.start()
        self.two.scan()
        wait_until("the other bytes are on the other device", lambda: text_of(self.one.files / "text") == "HELLO")
        self.stop()


class RotThatAScanDrops(WhereAttributesAreScanned):
    """The same on a device that only receives: a scan finds them, and Syncthing keeps the record that all others have."""

    kinds = {"two": "receiveonly"}

    def test_no_local_change_is_told(self):
        told = ("size and time are as recorded (modified", f"to have again what {self.two.id[:7]} recorded, copy it from")
        self.assert_told(*told)
        self.start()
        self.two.scan()
        self.assertEqual(self.two.api("GET", f"db/status?folder={FOLDER}")["receiveOnlyTotalItems"], 0)
        self.assertEqual(text_of(self.one.files / "text"), "hello")
        self.stop()
        self.rot("text")
        self.assert_told(*told)


class RotWithAttributesThatAnOldChangeMeets(late_rot.RotThatAnOldChangeMeets, WhereAttributesAreScanned):
    """A device that is behind with the rotten files."""

    def assert_told(self, name):
        """Scans look at attributes, so nothing is foretold."""
        entry, first = self.entry(name)
        self.assertIn("it isn't known what happens: owners or extended attributes are scanned", entry)
        self.assertIn("before Syncthing starts or scans on any of these devices, copy elsewhere what is to stay of what stands on ", entry)
        self.assertTrue(first.startswith(self.label(self.two)))

    def rot(self, name):
        late_rot.LateRot.rot(self, name)

    def show(self, name):
        """The inode has changed. That is enough."""


class Synchronised(WhereAttributesAreScanned):
    """Two devices that give each other extended attributes, and owners where they may."""

    @classmethod
    def setUpClass(cls):
        cls.are_owners_given = os.geteuid() == 0
        both = {"syncXattrs": "true", "syncOwnership": str(cls.are_owners_given).lower()}
        cls.options = {"one": both, "two": both}
        super().setUpClass()

    @classmethod
    def synchronise(cls):
        for name in (KEPT, LOST):
            (cls.one.files / name).write_text("binary " + name)
        try:
            cls.mark(cls.one, "blue")
        except OSError as fault:
            raise unittest.SkipTest(f"the temporary directory has no extended attributes: {fault}") from fault
        cls.scan_and_wait()

    @classmethod
    def mark(cls, device, colour):
        """Gives the files of a device this attribute, and an owner that is told by it."""
        for name in (KEPT, LOST):
            path = device.files / name
            os.setxattr(path, COLOUR, colour.encode())
            if cls.are_owners_given:
                os.chown(path, 10000 + len(colour), 20000 + len(colour))

    def marks(self, device):
        """The attribute, and the owner and group, of a device's files."""
        paths = [device.files / name for name in (KEPT, LOST)]
        return [(os.getxattr(path, COLOUR).decode(), path.stat().st_uid, path.stat().st_gid) for path in paths]

    def due(self, colour):
        """What all files have once all devices are in step."""
        owner, group = (10000 + len(colour), 20000 + len(colour)) if self.are_owners_given else (os.geteuid(), os.getegid())
        return [(colour, owner, group)] * 2

    def run_until_in_step(self):
        """Both devices run and scan until they tell each other nothing any more."""
        self.start()
        for device in self.devices:
            device.scan()
        wait_until("both are in step", lambda: all(one.is_in_step_with(other) and one.knows_all_of(other)
                                                   for one in self.devices for other in one.peers))
        self.stop()


class AttributesOfAMendedFile(Synchronised):
    """Rot in one file, and another one that is missing."""

    def test_they_are_kept_everywhere(self):
        self.assertEqual(self.marks(self.two), self.due("blue"))
        self.rot(KEPT)
        (self.two.files / LOST).unlink()
        text = " ".join(self.answer()[1].split())
        self.assertIn("with its time alone, into the file that stands there (cp --preserve=timestamps, or", text)
        self.assertIn("as it is (cp -a, or rsync -aIX, as the user who runs Syncthing there), with the directories above", text)
        for name, how in ((KEPT, "--preserve=timestamps"), (LOST, "-a")):
            subprocess.run(["cp", how, self.one.files / name, self.two.files / name], check=True)
        self.assertEqual(self.verdict(), "settled")
        self.run_until_in_step()
        for device in self.devices:
            self.assertEqual(self.marks(device), self.due("blue"))
            self.assertEqual([text_of(device.files / name) for name in (KEPT, LOST)], ["binary " + KEPT, "binary " + LOST])


class AttributesOfATouchedFile(Synchronised):
    """Rot on a second device whose scans look at no attributes. Its bytes are the right ones. Where it is of 1.19, it records none; one of 1.29
    keeps those of the file's record."""

    @staticmethod
    def scanners():
        return programs()[:1]

    @classmethod
    def configure(cls):
        cls.options = {"one": cls.options["one"]}
        super().configure()

    def test_the_others_lose_them_where_the_second_device_is_of_1_19(self):
        forgets = version_of(self.two.program).startswith("syncthing v1.19")
        self.assertEqual(self.marks(self.one), self.due("blue"))
        self.rot(KEPT)
        self.assertIn("it isn't known what happens: owners or extended attributes are scanned", " ".join(self.answer()[1].split()))
        (self.two.files / KEPT).touch()
        self.run_until_in_step()
        self.assertEqual(text_of(self.one.files / KEPT), text_of(self.two.files / KEPT))
        kept = self.one.files / KEPT
        if forgets:
            self.assertEqual((os.listxattr(kept), kept.stat().st_uid), ([], os.geteuid()))
        else:
            self.assertEqual(self.marks(self.one), self.due("blue"))


class AttributesThatNoScanHasSeen(Synchronised):
    """Attributes and owners that changed on a disk, in a folder that is firm."""

    def test_they_are_told_as_not_compared_and_the_next_scan_records_them(self):
        self.mark(self.two, "yellow")
        ran = self.check()
        self.assertEqual((ran.returncode, ran.stdout.splitlines()[0]), (0, "settled"))
        self.assertIn("not compared: owners, extended attributes", self.answer()[1])
        self.run_until_in_step()
        for device in self.devices:
            self.assertEqual(self.marks(device), self.due("yellow"))


if __name__ == "__main__":
    main()
