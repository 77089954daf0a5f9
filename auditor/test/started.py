#!/usr/bin/env python3
"""A real device whose Syncthing is started while its part is made: it runs, and the part is refused.

    auditor/test/started.py
"""

import os
import signal
import subprocess
from pathlib import Path

from exporting import Exporting, main
from syncthing import SECONDS_TO_WAIT, wait_until

# As long as a file without a record may be and be hashed to its end, which takes seconds; it takes no room.
BYTES_OF_SECONDS = 1 << 32


def has_open(process, path):
    """Whether a process has a file open."""
    try:
        return any(os.path.realpath(one) == str(path) for one in Path(f"/proc/{process.pid}/fd").iterdir())
    except FileNotFoundError:
        return False


class StartedMeanwhile(Exporting):
    """Two devices. The first one is started while a file of it is hashed."""

    def test_syncthing_starts_and_the_part_is_refused(self):
        large, path = self.one.files / "large and new", self.room / "meanwhile.part"
        with large.open("wb") as made:
            made.truncate(BYTES_OF_SECONDS)
        process = subprocess.Popen([self.program, "part", "--home", self.one.home, "-o", path], stderr=subprocess.PIPE, text=True)
        try:
            wait_until("it hashes the file", lambda: has_open(process, large.resolve()))
            process.send_signal(signal.SIGSTOP)
            os.truncate(large, 0)
            self.one.start()
            process.send_signal(signal.SIGCONT)
            told = process.communicate(timeout=SECONDS_TO_WAIT)[1]
            self.assertTrue(self.one.answers())
        finally:
            process.kill()
            large.unlink(missing_ok=True)
            self.one.stop()
        self.assertEqual((process.returncode, path.exists()), (2, False), told)
        self.assertIn(f"refused: {self.one.home}: its index changed while it was read", told)
        self.assertIn("Syncthing was started there. Stop it, and begin anew", told)


if __name__ == "__main__":
    main()
