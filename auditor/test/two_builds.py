#!/usr/bin/env python3
"""By hand: two programs, built with the packages of two versions of Syncthing, read the same from real devices.

    SYNCTHING=OLD/syncthing:NEW/syncthing auditor/test/two_builds.py PROGRAM OTHER

Each makes a part of each device: in step, with what waits to be taken, and with rot and ignored files. The parts are the
same but for when they were made, and so are the answers.
"""

import os
import sys
import unittest

from exporting import Exporting, run
from syncthing import version_of, wait_until

PROGRAMS = sys.argv[1:]


class TwoBuilds(Exporting):
    """Three devices, the third of which only receives. Those of 1.29 send extended attributes."""

    names = ("one", "two", "three")
    kinds = {"three": "receiveonly"}

    @classmethod
    def configure(cls):
        super().configure()
        cls.three = cls.devices[2]
        for device in cls.devices:
            if not version_of(device.program).startswith("syncthing v1.19"):
                device.choose(sendXattrs="true")

    def answer(self, program):
        """What a program answers of all devices."""
        ran = run([program, "check", *(word for device in self.devices for word in ("--home", device.home)),
                   "--syncaudit", self.auditor, "--lines", "--leave-out", "ignored"])
        return ran.returncode, ran.stdout

    def assert_same(self, status, names):
        """Both programs make the same parts, with so many names at the first device, and answer the same."""
        for place, device in enumerate(self.devices):
            lines, others = (self.lines(program, device) for program in PROGRAMS)
            self.assertEqual(lines, others)
            if place == 0:
                self.assertEqual(sum("name" in line for line in lines[1:]), names)
        answer, other = (self.answer(program) for program in PROGRAMS)
        self.assertEqual(answer, other)
        self.assertEqual(answer[0], status, answer[1])

    def test_parts_and_answers_are_the_same(self):
        self.assert_same(0, 6)
        self.change()
        self.assert_same(1, 60)
        self.rot_and_ignore()
        self.assert_same(1, 61)

    def change(self):
        """Files are added, changed and deleted; the device that only receives changes some of its own."""
        self.start()
        for number in range(50):
            (self.one.files / f"file{number}").write_bytes(os.urandom(number * 7000))
        (self.one.files / "dangling").symlink_to("nowhere")
        (self.two.files / "folder" / "f\u00fcr").mkdir()
        (self.two.files / "added").write_text("added")
        (self.two.files / "text").unlink()
        (self.three.files / "local").write_text("local")
        (self.three.files / "empty").write_text("changed")
        for device in self.devices:
            device.scan()
        wait_until("all have heard of all", lambda: all(one.knows_all_of(other) for one in self.devices for other in one.peers))
        wait_until("the second device has taken the files", (self.two.files / "file49").exists)
        self.stop()

    def rot_and_ignore(self):
        """Bytes rot on the second device. The first one ignores names, one of which no index has."""
        (self.one.files / ".stignore").write_text("file1*\n(?i)ADD*\n!file2\nscratch\n")
        (self.one.files / "scratch").write_text("scratch")
        path = self.two.files / "file30"
        times, data = path.stat(), path.read_bytes()
        path.write_bytes(b"rot" + data[3:])
        os.utime(path, ns=(times.st_atime_ns, times.st_mtime_ns))


if __name__ == "__main__":
    if len(PROGRAMS) != 2:
        raise SystemExit(__doc__)
    unittest.main(argv=sys.argv[:1])
