#!/usr/bin/env python3
"""The audit of two real Syncthing devices whose folder doesn't fit into one document with bytes.

    auditor/test/large_folders.py
"""

import json
import os
import tempfile
import unittest
from pathlib import Path

from exporting import PROGRAM, Exporting, auditor, built, is_over, main, put_replies, run, without_firmness
from syncthing import FOLDER

MEGA = 1 << 20


def rot(path, place):
    """Changes a byte of a file, not its size or time, and gives what undoes that."""
    times = path.stat()

    def flip():
        with path.open("r+b") as file:
            file.seek(place)
            first = file.read(1)
            file.seek(place)
            file.write(bytes([first[0] ^ 1]))
        os.utime(path, ns=(times.st_atime_ns, times.st_mtime_ns))
    flip()
    return flip


class LargeFolder(Exporting):
    """Three files of 6 MiB, each of which may take 24 MiB of a document, as digits for two devices: at most two fit."""

    @classmethod
    def synchronise(cls):
        for name in ("a.bin", "b.bin", "c.bin"):
            (cls.one.files / name).write_bytes(os.urandom(6 * MEGA - 1))
        (cls.one.files / "text").write_text("hello")
        cls.scan_and_wait()

    def test_one_document_is_refused(self):
        ran = self.export("--bytes")
        self.assertEqual((ran.returncode, ran.stdout), (2, ""))
        self.assertIn("one document hasn't room for all: --into DIR writes several", ran.stderr)

    def test_several_documents_in_a_directory(self):
        room = self.room / "documents"
        ran = self.export("--bytes", "--into", str(room))
        self.assertEqual((ran.returncode, ran.stdout), (0, ""), ran.stderr)
        documents = [json.loads(path.read_bytes()) for path in sorted(room.glob("cut-*.json"))]
        names = [[node["name"] for node in one["cut"]["folders"][0]["devices"][0]["store"]] for one in documents]
        self.assertEqual(names, [["a.bin", "b.bin"], ["c.bin", "text"]])
        for path in room.glob("cut-*.json"):
            with path.open("rb") as cut:
                certified = run([self.auditor, "certify"], stdin=cut, check=True)
            self.assertLessEqual(len(certified.stdout.encode()), 64 * MEGA)
        ran = self.export("--bytes", "--into", str(room))
        self.assertEqual(ran.returncode, 2)
        self.assertIn("documents has an earlier export (cut-0001.json): name another directory", ran.stderr)

    def test_the_sum_of_the_answers(self):
        counts = f"folder {FOLDER}: 4 names, 0 deleted, 2 devices"
        self.assertEqual(self.report(), ["settled", counts])
        undo = rot(self.two.files / "b.bin", 0)
        try:
            self.assertEqual(self.report(), [self.fault("StoreDiffers", "b.bin", self.two), counts,
                                             self.failure("StoreDiffers", "b.bin", self.two)])
        finally:
            undo()

    def test_a_file_over_the_limit_of_bytes_is_left_out(self):
        path = self.one.files / "huge"
        with path.open("wb") as file:
            file.truncate(64 * MEGA + 1)
        try:
            lines = without_firmness(self.check("--bytes", "--leave-out", "large").stdout.splitlines())
            self.assertEqual(lines[0], "settled as far as audited")
            self.assertIn(f"left out: {FOLDER} huge on {self.number(self.one)}: a document with bytes", lines[2])
            self.assertIn("there is nothing to audit", self.refused("--bytes", "--leave-out", "large", "--names", "huge"))
        finally:
            path.unlink()


class LargeFiles(Exporting):
    """Files that no document has room for, one of them in blocks of 256 KiB."""

    is_large = True

    @classmethod
    def synchronise(cls):
        (cls.one.files / "twenty.bin").write_bytes(os.urandom(20 * MEGA))
        with (cls.one.files / "sparse.bin").open("wb") as file:
            file.truncate(300 * MEGA)
        cls.scan_and_wait()

    def test_rot_in_large_files(self):
        self.assertEqual(self.report(), ["settled", f"folder {FOLDER}: 2 names, 0 deleted, 2 devices"])
        undo = [rot(self.two.files / "twenty.bin", 19 * MEGA), rot(self.one.files / "sparse.bin", 299 * MEGA)]
        lines = self.report()
        self.assertEqual(lines[0], self.fault("StoreDiffers", "sparse.bin", self.one))
        self.assertEqual(lines[2:], [self.failure("StoreDiffers", "sparse.bin", self.one),
                                     self.failure("StoreDiffers", "twenty.bin", self.two),
                                     f"first: on {self.number(self.two)}: made-safe",
                                     f"not as recorded: {FOLDER} sparse.bin on {self.number(self.one)}: over-zeros, "
                                     f"{300 * MEGA} bytes recorded, {300 * MEGA} found"])
        self.assert_blocks(self.one, "sparse.bin", (256 << 10, [[1196, 1196]]))
        self.assert_blocks(self.two, "twenty.bin", (128 << 10, [[152, 152]]))
        for one in undo:
            one()
        self.assertEqual(self.verdict(), "settled")

    def assert_blocks(self, device, name, expected):
        """A device's part tells the block size of a file and which blocks differ from the record."""
        lines = [json.loads(line) for line in self.shown(device, "--names", name)]
        found, = [line["name"]["disk"] for line in lines if "disk" in line.get("name", ())]
        self.assertEqual((found["contents"][0]["block_size"], found["differ"]["ranges"]), expected)


class ManyFiles(unittest.TestCase):
    """More names than one document has, in indexes that Syncthing's own packages wrote without any device running."""

    @classmethod
    def setUpClass(cls):
        if is_over():
            raise unittest.SkipTest("the time is over")
        room = tempfile.TemporaryDirectory(prefix="syncthing-audit-test-")
        cls.addClassCleanup(room.cleanup)
        cls.room = Path(room.name)
        cls.programs = built(cls.room)
        run([cls.programs / "sample", "--files", "5000", "--bytes", "100", cls.room], check=True)

    def check(self, *words):
        """The lines of an audit of these."""
        ran = run([self.programs / PROGRAM, "check", *words, "--lines", "--syncaudit", auditor()])
        return without_firmness(ran.stdout.splitlines())

    def test_five_thousand_names(self):
        homes = [self.room / f"device{number}" / "home" for number in (1, 2)]
        words = [word for home in homes for word in ("--home", home)]
        counts = f"folder {FOLDER}: 5050 names, 0 deleted, 2 devices"
        self.assertEqual(self.check(*words), ["settled", counts])
        rot(self.room / "device2" / "files" / "00049" / "99.bin", 99)
        parts = [self.room / f"{number}.part" for number in (1, 2)]
        for home, part in zip(homes, parts):
            run([self.programs / PROGRAM, "part", "--home", home, "-o", part], check=True)
        lines = self.check(*parts)
        self.assertEqual((len(lines), lines[1]), (3, counts))
        self.assertIn(f"not settled: StoreDiffers {FOLDER} 00049/99.bin on ", lines[0])
        self.assert_sum(parts, lines)

    def assert_sum(self, parts, lines):
        """The answers to exported documents, each in a process of its own, join to the same lines."""
        into = self.room / "documents"
        run([self.programs / PROGRAM, "export", *parts, "--into", into], check=True)
        documents = sorted(into.glob("cut-*.json"))
        self.assertGreater(len(documents), 1)
        ran = run([self.programs / PROGRAM, "sum", into, "--lines"])
        self.assertEqual((ran.returncode, ran.stdout), (2, ""))
        self.assertIn("a document has no answer yet", ran.stderr)
        put_replies(into)
        ran = run([self.programs / PROGRAM, "sum", into, "--lines"])
        self.assertEqual((ran.returncode, without_firmness(ran.stdout.splitlines())), (1, lines), ran.stderr)


if __name__ == "__main__":
    main()
