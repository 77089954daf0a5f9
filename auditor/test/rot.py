#!/usr/bin/env python3
"""The audit of two real Syncthing devices one of which has rotten files: rot in many blocks, rot together with another
mode, and rot in files of each block size.

    auditor/test/rot.py
"""

import json
import os

from exporting import Exporting, main
from large_folders import MEGA, rot
from syncthing import FOLDER, wait_until

KILO = 1 << 10


def text_of(path):
    """The text of a file; none while Syncthing puts another one in its place."""
    try:
        return path.read_text()
    except FileNotFoundError:
        return None


class Rotten(Exporting):
    """Two devices, the second of which has rotten files; and the answers in each form."""

    def answer(self, *words):
        """What an audit of all homes writes in another form than lines, and its status."""
        ran = self.on_homes("check", [device.home for device in self.devices], "--syncaudit", self.auditor, *words)
        return ran.returncode, ran.stdout

    def file_of(self, name):
        """What a program reads of a name."""
        status, text = self.answer("--json")
        self.assertEqual(status, 1)
        file, = [one for one in json.loads(text)["folders"][0]["files"] if one["name"] == name]
        return file


class RotInManyBlocks(Rotten):
    """A file of 300 blocks."""

    blocks = 300

    @classmethod
    def synchronise(cls):
        (cls.one.files / "many.bin").write_bytes(os.urandom(cls.blocks * 128 * KILO))
        cls.scan_and_wait()

    def test_how_many_blocks_differ_is_told(self):
        """Every second block rots: more ranges than a part lists. Each form of the answer has the whole count."""
        path = self.two.files / "many.bin"
        undo = [rot(path, place * 128 * KILO) for place in range(0, self.blocks, 2)]
        try:
            self.assertEqual(self.check().stdout.splitlines()[0], self.fault("StoreDiffers", "many.bin", self.two))
            blocks = self.file_of("many.bin")["faults"][0]["blocks"]
            self.assertEqual((blocks["count"], blocks["of"], len(blocks["ranges"]), blocks["unlisted"]), (150, 300, 64, 86))
            self.assertIn("    blocks 0, 2, 4, 6, 8, 10, 12, 14 and 142 more differ (150 of 300 blocks of 128 KiB; the first is block 0)",
                          self.answer()[1].splitlines())
            found, = [json.loads(line)["name"]["disk"] for line in self.shown(self.two) if '"many.bin"' in line]
            self.assertEqual((found["differ"]["count"], len(found["differ"]["ranges"])), (150, 64))
        finally:
            for one in undo:
                one()
        self.assertEqual(self.check().stdout.splitlines()[0], "settled")


class RotWithAnotherMode(Rotten):
    """Other bytes of the same size and time, under another mode than the one that is recorded."""

    def test_both_are_told_and_the_next_scan_sees_them(self):
        path = self.two.files / "text"
        times = path.stat()
        path.write_text("hallo")
        os.utime(path, ns=(times.st_atime_ns, times.st_mtime_ns))
        path.chmod(0o600)
        lines = self.report()
        self.assertEqual(lines[0], self.fault("StoreDiffers", "text", self.two))
        self.assertIn(f"permissions: {FOLDER} text", "\n".join(lines))
        self.assertIn(f"{self.number(self.two)} index 0644 disk 0600", "\n".join(lines))
        self.assert_a_program_reads_both()
        self.assert_a_person_reads_both()
        self.assert_the_next_scan_sends_them()

    def assert_a_program_reads_both(self):
        file = self.file_of("text")
        self.assertEqual([(one["device"], one["cause"], one["blocks"]["count"]) for one in file["faults"]], [(self.two.id, "other-bytes", 1)])
        self.assertEqual({one["device"]: (one["index"], one.get("disk")) for one in file["permissions"]},
                         {self.one.id: ("0644", "0644"), self.two.id: ("0644", "0600")})

    def assert_a_person_reads_both(self):
        text = self.answer()[1]
        entry, = [" ".join(entry.split()) for entry in text.split("\n\n") if entry.startswith("text")]
        for told in (f"{self.two.id[:7]}: other bytes on the disk; size and time are as recorded",
                     "permissions differ (they don't count for the verdict)", "0644 recorded, 0600 on the disk",
                     f"if nothing is done: all devices then have what {self.two.id[:7]} has now; what {self.one.id[:7]} has now goes, "
                     f"and {self.one.id[:7]} keeps no old versions."):
            self.assertIn(told, entry)

    def assert_the_next_scan_sends_them(self):
        """Real Syncthing does what the answer says of it: the scan finds the file, and its bytes go to the other device."""
        self.start()
        self.two.scan()
        wait_until("the rotten bytes are on the other device", lambda: text_of(self.one.files / "text") == "hallo")
        self.stop()


class BlockSizes(Rotten):
    """Files in blocks of 128, 256 and 512 KiB, as Syncthing chooses them by their sizes."""

    is_large = True
    sizes = {"small.bin": (3 * MEGA, 128), "middle.bin": (260 * MEGA, 256), "large.bin": (520 * MEGA, 512)}

    @classmethod
    def synchronise(cls):
        for name, (size, _) in cls.sizes.items():
            with (cls.one.files / name).open("wb") as file:
                file.truncate(size)
        cls.scan_and_wait()

    def test_rot_in_the_last_block_of_each(self):
        self.assertEqual(self.report(), ["settled", f"folder {FOLDER}: 3 names, 0 deleted, 2 devices"])
        undo = [rot(self.two.files / name, size - 1) for name, (size, _) in self.sizes.items()]
        try:
            lines = self.report()
            names = sorted(self.sizes)
            self.assertEqual(lines[2:5], [self.failure("StoreDiffers", name, self.two) for name in names])
            # All of these files is recorded as zeros, so a byte of another value may be the right one.
            self.assertEqual([line.split()[3:5] for line in lines[5:]], [["docs", name] for name in names])
            for name, (size, kilo) in self.sizes.items():
                blocks = self.file_of(name)["faults"][0]["blocks"]
                count = size // (kilo * KILO)
                self.assertEqual((blocks["size"], blocks["of"], blocks["count"], blocks["ranges"], blocks["unlisted"]),
                                 (kilo * KILO, count, 1, [[count - 1, count - 1]], 0))
        finally:
            for one in undo:
                one()


if __name__ == "__main__":
    main()
