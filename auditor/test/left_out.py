#!/usr/bin/env python3
"""Real Syncthing devices of which not all can be audited: what can be is answered, and the rest is told.

    auditor/test/left_out.py
"""

import os

from exporting import IN_STEP, Exporting, main, run
from live_looks import rot
from syncthing import FOLDER, wait_until
from unasked import LABEL, OTHER, add_folder


class LeftOut(Exporting):
    """Two devices in step that share two folders."""

    @classmethod
    def configure(cls):
        super().configure()
        for device in cls.devices:
            add_folder(device, OTHER, LABEL)

    @classmethod
    def synchronise(cls):
        (cls.one.home.parent / OTHER / "song").write_bytes(bytes(range(256)) * 2048)
        cls.one.api("POST", f"db/scan?folder={OTHER}")
        wait_until("the song is on both devices", (cls.two.home.parent / OTHER / "song").exists)
        super().synchronise()

    def told(self, parts, *words):
        """The status and the lines of an answer for a person."""
        ran = run([self.program, "check", *parts, "--syncaudit", self.auditor, *words])
        return ran.returncode, ran.stdout.splitlines(), ran.stderr

    def edited_between(self):
        """The parts of both devices, between which a file of the first folder is edited on the first device, and comes to the second one. The song
        rots on the second device before its part is made."""
        first = self.part(self.one)
        self.start()
        try:
            (self.one.files / "text").write_text("edited at night")
            (self.one.files / "late").write_text("made at night")
            self.scan_and_wait()
        finally:
            self.stop()
        return [first, self.part(self.two)]

    def test_an_edit_between_two_parts(self):
        """It silences nothing: rot in the other folder is told, and so is rot in the same one. What was edited is in motion."""
        with rot(self.two.home.parent / OTHER / "song", 1000):
            parts = self.edited_between()
        status, lines, stderr = self.told(parts)
        self.assertEqual(status, 1, stderr)
        self.assertTrue([line for line in lines if line.startswith(f"{OTHER} ({LABEL}): NOT in step, 1 name is wrong;")], lines)
        self.assertTrue([line for line in lines if line.startswith(f"{FOLDER}: {IN_STEP} as far as audited") and line.endswith("; in motion: 2")], lines)
        for name in ("late", "text"):
            self.assertIn(f"  {name}: {self.one.id[:7]}: another device knows of a later change of it", lines)
        earlier, = [line for line in lines if line.startswith("of another moment: ")]
        self.assertTrue(earlier.startswith(f"of another moment: {FOLDER} of {self.one.id}: it is of an earlier moment than {parts[1]}, which knows of its change "), earlier)
        with rot(self.two.files / "folder" / "large", 1000):
            parts[1] = self.part(self.two)
        self.assertEqual(self.told(parts, "--lines")[1][0], f"not settled: StoreDiffers {FOLDER} folder/large on {self.number(self.two)}")
        status, lines, stderr = self.told(parts, "--strict")
        self.assertEqual((status, lines), (2, []))
        self.assertIn("it is of an earlier moment than", stderr)
        parts = [self.part(device) for device in self.devices]
        self.assertEqual(self.told(parts)[0], 0)

    def test_a_missing_device_a_fifo_and_an_odd_name(self):
        """None of them keeps rot from being told. Each is told, and where nothing is wrong the status is 6."""
        odd = os.path.join(os.fsencode(self.one.files), b"odd\xff")
        os.mkfifo(self.one.files / "fifo")
        open(odd, "xb").close()
        try:
            parts = [self.part(device) for device in self.devices]
            with rot(self.two.home.parent / OTHER / "song", 1000):
                run([self.program, "part", "--home", self.two.home, "-o", self.room / "rotten.part"], check=True)
        finally:
            (self.one.files / "fifo").unlink()
            os.remove(odd)
        status, lines, stderr = self.told(parts)
        self.assertEqual((status, len([line for line in lines if line.startswith("left out")])), (6, 1), lines)
        self.assertEqual(self.told([parts[0], self.room / "rotten.part"])[0], 1)
        self.assertEqual(self.told(parts[:1])[0], 6)


class IgnoredOnOne(Exporting):
    """Two devices in step, of which the first one has come to ignore a file, and tells the second one so."""

    @classmethod
    def setUpClass(cls):
        super().setUpClass()
        (cls.one.files / ".stignore").write_text("/folder/large\n")
        cls.start()
        cls.one.scan()
        wait_until("the other device knows", lambda: cls.two.knows_all_of(cls.one))
        cls.stop()

    def test_rot_elsewhere(self):
        """What another device ignores is hashed all the same, and rot of it is told, with the blocks."""
        homes = [word for device in self.devices for word in ("--home", device.home)]
        words = [self.program, "check", *homes, "--syncaudit", self.auditor]
        self.assertEqual(run(words).returncode, 6)
        with rot(self.two.files / "folder" / "large", 1000):
            ran = run(words)
        self.assertEqual(ran.returncode, 1, ran.stdout + ran.stderr)
        self.assertIn("other bytes on the disk; size and time are as recorded", ran.stdout)
        self.assertIn("the name wasn't compared with what other devices have", ran.stdout)
        self.assertIn("block 0 differs", ran.stdout)


if __name__ == "__main__":
    main()
