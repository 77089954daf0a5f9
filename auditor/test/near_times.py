#!/usr/bin/env python3
"""The audit of a real device whose folder has a window for coarse times (modTimeWindowS).

    auditor/test/near_times.py
"""

import os

from exporting import Exporting, main, run
from syncthing import FOLDER, wait_until

SECONDS = 5


class NearTimes(Exporting):
    """Two devices. The second one's Syncthing takes times for one that differ by less than some seconds."""

    @classmethod
    def setUpClass(cls):
        super().setUpClass()
        cls.two.choose(modTimeWindowS=str(SECONDS))
        cls.path = cls.two.files / "text"
        cls.times = cls.path.stat()

    def move(self, seconds):
        """Gives the file on the second device a time that is so much later than recorded."""
        os.utime(self.path, ns=(self.times.st_atime_ns, self.times.st_mtime_ns + int(seconds * 1e9)))
        self.addCleanup(os.utime, self.path, ns=(self.times.st_atime_ns, self.times.st_mtime_ns))

    def near(self):
        """The line that says of how many files a time is taken for the recorded one."""
        return f"times taken for the same: {FOLDER} 1 files on {self.number(self.two)}, by less than {SECONDS} s"

    def read(self):
        """What a person reads."""
        return run([self.program, "check", *(word for one in self.devices for word in ("--home", one.home)), "--syncaudit", self.auditor]).stdout

    def test_a_time_within_the_window_is_the_recorded_one(self):
        """The device's scan takes nothing for changed either. Looks at it while it runs find it at rest, too."""
        self.move(SECONDS - 0.5)
        lines = self.report()
        self.assertEqual((lines[0], lines.count(self.near())), ("settled", 1))
        self.assertEqual(self.check_parts([self.part(one) for one in self.devices]).returncode, 0)
        self.assertIn(f"in {FOLDER} 1 file, by less than {SECONDS} seconds, on {self.two.id[:7]}: the time on the disk isn't the recorded one", " ".join(self.read().split()))
        self.start()
        before = self.two.api("GET", f"db/status?folder={FOLDER}")["sequence"]
        self.two.scan()
        wait_until("both devices are connected", lambda: self.one.is_in_step_with(self.two))
        self.assertEqual(self.two.api("GET", f"db/status?folder={FOLDER}")["sequence"], before)
        ran = run([self.program, "run", self.one.home, self.two.home, "--still", "0", "--lines", "--syncaudit", self.auditor])
        self.stop()
        self.assertEqual((ran.returncode, ran.stdout.splitlines()[0], ran.stdout.splitlines().count(self.near())), (0, "settled", 1), ran.stderr)

    def test_a_time_at_the_window_is_another_one(self):
        self.move(SECONDS)
        lines = self.report()
        self.assertEqual(lines[0], self.fault("StoreUnclean", "text", self.two))
        self.assertNotIn(self.near(), lines)

    def test_the_window_is_the_device_s_own(self):
        path = self.one.files / "text"
        times = path.stat()
        os.utime(path, ns=(times.st_atime_ns, times.st_mtime_ns + 1))
        self.addCleanup(os.utime, path, ns=(times.st_atime_ns, times.st_mtime_ns))
        self.assertEqual(self.verdict(), self.fault("StoreUnclean", "text", self.one))

    def test_other_bytes_at_such_a_time(self):
        """No scan sees them, so they are told as those of the recorded time are."""
        self.move(0)  # so the time is put back last
        data = self.path.read_bytes()
        self.path.write_bytes(data[::-1])
        self.addCleanup(self.path.write_bytes, data)
        self.move(1)
        lines = self.report()
        self.assertEqual((lines[0], lines.count(self.near())), (self.fault("StoreDiffers", "text", self.two), 1))
        self.assertIn("which no scan sees", " ".join(self.read().split()))


if __name__ == "__main__":
    main()
