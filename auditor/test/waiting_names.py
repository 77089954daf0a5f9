#!/usr/bin/env python3
"""The answer of 'run' on real Syncthing devices whose disks have damage that no scan has seen, followed from the top: no step loses good bytes.

    auditor/test/waiting_names.py
"""

import os
import subprocess

from exporting import main, run
from live_looks import Live
from rot import text_of
from syncthing import wait_until_in_step

ROTTEN, EMPTIED, CUT, MISSING = "0001-rotten", "0002-emptied", "0003-cut", "0008-missing"
NAMES = (ROTTEN, EMPTIED, CUT, MISSING, "0009-still")


class WaitingNames(Live):
    """Three devices that run. On the second one a file rots, one is emptied and one is gone; on the third one a file is cut short."""

    names = ("laptop", "server", "nas")

    @classmethod
    def synchronise(cls):
        for name in NAMES:
            (cls.one.files / name).write_text("good " + name)
        cls.scan_and_wait()

    def harm(self, device, name, text):
        """This text stands in a file of a device, under the recorded time."""
        path = device.files / name
        times = path.stat()
        path.write_text(text)
        os.utime(path, ns=(times.st_atime_ns, times.st_mtime_ns))

    def read(self):
        """The answer of 'run', the lines of text that stand above the entries, and the entries."""
        ran = run([self.program, "run", *(device.home for device in self.devices), "--still", "0", "--syncaudit", self.auditor])
        self.assertEqual(ran.returncode, 1, ran.stderr)
        head, _, rest = ran.stdout.partition(f"\n\n{ROTTEN}  (in ")
        return [" ".join(line.split()) for line in head.replace("\n        ", " ").splitlines()], " ".join(rest.split())

    def mend(self, device, *names):
        """Files are copied back to a device from the first one while it is stopped, and it starts."""
        device.stop()
        for name in names:
            subprocess.run(["cp", "-a", self.one.files / name, device.files / name], check=True)
        device.start()

    def test_what_comes_first_loses_nothing(self):
        """Who does what the lines at the top say, and then what the entry of the rotten file says, has all bytes on all devices."""
        one, two, three = (device.id[:7] for device in self.devices)
        self.harm(self.two, ROTTEN, "evil " + ROTTEN)
        self.harm(self.two, EMPTIED, "")
        self.harm(self.three, CUT, "good")
        (self.two.files / MISSING).unlink()
        head, rest = self.read()
        first = sorted((line for line in head if line.startswith("first, on ")), key=lambda line: line.startswith(f"first, on {three}:"))
        self.assertEqual([line.partition(":")[0] for line in first], [f"first, on {name}" for name in (two, three)], head)
        self.assertIn("1 is MISSING, 1 is EMPTY.", first[0])
        self.assertIn("1 is CUT SHORT.", first[1])
        self.assertIn("As recorded: " + ", ".join(sorted(f"2 on {name}" for name in (one, three))), first[0])
        self.assertIn("As recorded: " + ", ".join(sorted(f"1 on {name}" for name in (one, two))), first[1])
        for line in first:
            self.assertIn("before Syncthing starts or scans there, also for an entry below", line)
        moving = rest.partition("in motion in ")[2]
        order = [moving.find(word) for word in ("before a scan:", f"{EMPTIED}: {two}: looks damaged: 17 bytes recorded, 0 bytes on the disk: EMPTY (modified ", "then: audit again after a scan")]
        self.assertEqual(order, sorted(order), moving)
        self.assertNotIn(-1, order, moving)
        self.assertIn(f"{CUT}: {three}: looks damaged: 13 bytes recorded, 4 bytes on the disk: cut short under the recorded time (modified ", moving)
        self.assertIn(f"{MISSING}: {two}: missing on the disk; as recorded on {', '.join(sorted((one, three)))}", moving)
        self.mend(self.two, EMPTIED, MISSING)
        self.mend(self.three, CUT)
        self.mend(self.two, ROTTEN)
        for device in self.devices:
            device.scan()
        wait_until_in_step(*self.devices)
        for device in self.devices:
            self.assertEqual([text_of(device.files / name) for name in NAMES], ["good " + name for name in NAMES])


if __name__ == "__main__":
    main()
