#!/usr/bin/env python3
"""Bytes that stand on one device alone, on real Syncthing devices: the answer says where they are before it tells what may take them away.

    auditor/test/best_left.py
"""

import os
import shutil
import subprocess

from exporting import main, run
from late_rot import LateRot
from live_looks import Live
from rot import text_of
from syncthing import wait_until, wait_until_in_step

BLOCK = 131072


def write(path, data, times=None):
    """These bytes stand in a file, at these times."""
    path.write_bytes(data)
    if times is not None:
        os.utime(path, ns=(times.st_atime_ns, times.st_mtime_ns))


class OnlyCopies(LateRot):
    """Three devices, stopped. On each a file of the three harmed ones is all that is left of it, or was recorded there alone."""

    names = ("one", "two", "three")
    good = {"missing": b"a" * BLOCK + b"b" * BLOCK + b"c" * 100, "conflict": b"first", "deleted": b"wanted " * 100}

    @classmethod
    def synchronise(cls):
        cls.three = cls.devices[2]
        for name, data in cls.good.items():
            (cls.one.files / name).write_bytes(data)
        cls.one.scan()
        wait_until_in_step(*cls.devices)

    def told(self, name):
        """What a person reads of a name."""
        return self.entry(name)[0]

    def alone(self, device, change):
        """A device records a change while the others are off."""
        change()
        device.start()
        device.scan()
        device.stop()

    def test_the_best_of_rotten_copies_is_saved_first(self):
        """It is missing on two devices, and rots on the third one. What was saved stays, when a scan has deleted it on all."""
        for device in (self.one, self.two):
            (device.files / "missing").unlink()
        path = self.three.files / "missing"
        rotten = b"a" * BLOCK + b"X" * BLOCK + b"c" * 100
        write(path, rotten, path.stat())
        text = self.told("missing")
        three = self.label(self.three)
        self.assertIn(f" to do: look among old versions and backups: no audited device has what is recorded. Some of its blocks are on {three}. to do: take the steps for it above, "
                      "under 'to do in', which save what is to stay.", text)
        self.assertRegex(self.answer()[1], rf"for missing:\n +1\. on {three}: copy it elsewhere, if it is to stay: the start may take it away")
        shutil.copy(path, self.room / "saved")
        self.start()
        self.one.scan()
        wait_until("the third device has deleted it", lambda: not path.exists())
        self.stop()
        self.assertEqual((self.room / "saved").read_bytes(), rotten)

    def test_bytes_that_another_device_has_are_copied_from_there(self):
        """The first two devices have one change, the third one a later one. The change rots on the first one."""
        def change(device, data, seconds):
            write(device.files / "conflict", data)
            os.utime(device.files / "conflict", (1700000000 + seconds,) * 2)

        change(self.one, b"earlier", 0)
        for device in (self.one, self.two):
            device.start()
        self.one.scan()
        wait_until("the second device has the change", lambda: text_of(self.two.files / "conflict") == "earlier" and self.one.is_in_step_with(self.two))
        for device in (self.one, self.two):
            device.stop()
        self.alone(self.three, lambda: change(self.three, b"later", 100))
        rotten = self.one.files / "conflict"
        write(rotten, b"EARLIER", rotten.stat())
        one, two = self.label(self.one), self.label(self.two)
        text = self.told("conflict")
        self.assertIn("the steps for it above", text)
        subprocess.run(["cp", "--preserve=timestamps", self.two.files / "conflict", rotten], check=True)
        self.start()
        wait_until("all have the later change", lambda: all(text_of(device.files / "conflict") == "later" for device in self.devices))
        wait_until_in_step(*self.devices)
        self.stop()
        for device in self.devices:
            self.assertEqual({text_of(copy) for copy in device.files.glob("conflict.sync-conflict-*")}, {"earlier"})

    def test_what_is_deleted_elsewhere_and_cut_here_is_not_said_to_stay(self):
        """The first device deleted it, the second one, which is behind, has it, and on the third one it is cut short."""
        self.alone(self.one, (self.one.files / "deleted").unlink)
        path = self.three.files / "deleted"
        write(path, self.good["deleted"][:100], path.stat())
        text = self.told("deleted")
        two, three = self.label(self.two), self.label(self.three)
        self.assertIn(f"{three}: looks damaged: ", text)
        self.assertIn(f"before Syncthing starts or scans on any of these devices, copy elsewhere what is to stay. to do: to have again what {three} recorded, copy it from {two} to "
                      f"{three} with its time alone", text)
        fates = self.foretold()
        path.rename(self.room / "moved away")
        shutil.copy(self.two.files / "deleted", self.room / "kept")
        self.start()
        wait_until("it is deleted on the second device", lambda: not (self.two.files / "deleted").exists())
        wait_until_in_step(*self.devices)
        self.stop()
        self.assertEqual((self.room / "kept").read_bytes(), self.good["deleted"])
        self.assertEqual([(device.files / "deleted").exists() for device in self.devices], [False] * 3)


class HarmedWhileAllIsInStep(Live):
    """Two devices that run. On the second one a file is emptied and one is gone, and no scan has seen that: all else is in step."""

    def harm(self):
        """Empties a file under its time, and deletes another one."""
        path = self.two.files / "emptied"
        write(path, b"", path.stat())
        (self.two.files / "missing").unlink()

    def mend(self):
        """Copies both back from the first device."""
        for name in ("emptied", "missing"):
            subprocess.run(["cp", "-a", self.one.files / name, self.two.files / name], check=True)

    def read(self, *words):
        """What 'run' says, and its status."""
        ran = run([self.program, "run", *(device.home for device in self.devices), "--still", "0", "--syncaudit", self.auditor, *words])
        return ran.returncode, " ".join((ran.stdout + ran.stderr).split())

    def setUp(self):
        super().setUp()
        for name in ("emptied", "missing"):
            (self.one.files / name).write_text("good " + name)
        self.scan_and_wait()
        self.harm()

    def tearDown(self):
        self.mend()

    def test_the_head_says_so_and_does_not_call_it_firm(self):
        """Who copies back first, as the answer says, and has a scan made then, has lost nothing."""
        two = self.two.id[:7]
        status, text = self.read()
        self.assertEqual(status, 6, text)
        head, _, rest = text.partition(" first, on ")
        self.assertIn("docs: in step as far as audited, not known to be firm; ", head)
        self.assertIn("in motion: 2, NOT audited, of which no scan has seen: 1 is MISSING, 1 is EMPTY", head)
        self.assertTrue(rest.startswith(f"{two}: before Syncthing starts or scans there"), text)
        self.assertNotIn("What is firm stays as it is", text)
        lines = self.read("--lines")[1]
        self.assertRegex(lines, r"first: on \d+: not-scanned, 2 names not as recorded: docs emptied on \d+: emptied, 12 bytes recorded, 0 found not as recorded: docs missing on "
                                r"\d+: missing, 12 bytes recorded, 0 found")
        document = self.read("--json")[1]
        for word in ('"first":[{"why":"not-scanned"', '"waits":"emptied"', '"waits":"missing"', '"firm":"not-known"'):
            self.assertIn(word, document)
        self.mend()
        self.assertEqual(self.read("--rescan")[0], 0)
        for device in self.devices:
            self.assertEqual([text_of(device.files / name) for name in ("emptied", "missing")], ["good emptied", "good missing"])

    def test_a_refusal_says_what_no_scan_has_seen(self):
        """Nothing else was asked for, so there is nothing to audit."""
        status, text = self.read("--names", "missing")
        self.assertEqual(status, 2, text)
        one, two = (device.id[:7] for device in self.devices)
        self.assertIn(f"all of 1 names are in motion: look again. Before that, on {two}: no scan of folder docs has seen 1 missing there. A scan may delete "
                      f"that on all devices, or send it to them, so first copy back what is to stay as it is recorded (1 on {one})", text)


if __name__ == "__main__":
    main()
