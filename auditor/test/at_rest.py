#!/usr/bin/env python3
"""The audit of real Syncthing devices that run, while a scan is under way at one of them: what it found waits in its memory.

    auditor/test/at_rest.py
"""

import os
import sys
import threading
import time
import xml.etree.ElementTree as xml
from contextlib import contextmanager
from pathlib import Path

from answers import SCHEMA, STATUS_MISSING
from exporting import IN_STEP, main, run
from live_looks import Live
from syncthing import FOLDER, wait_until, wait_until_in_step

# Of the file whose hashing takes longer than a case.
BYTES_OF_LARGE = 1 << 42


class ScanUnderWay(Live):
    """Two devices in step. The first one scans: it found that 'text' has another name, and hashes a large file, which is gone. Meanwhile 'text' is
    back as it was."""

    def run_on(self, *words):
        """Audits both devices, which run."""
        return run([self.program, "run", self.one.home, self.two.home, "--still", "0", "--syncaudit", self.auditor, *words])

    @contextmanager
    def scanning(self):
        """Such a scan goes on until the one who asked for this calls what is given."""
        text, large = self.one.files / "text", self.one.files / "x-large"
        before = text.stat()
        text.rename(self.one.files / "other name")
        with large.open("wb") as opened:
            opened.truncate(BYTES_OF_LARGE)
            scan = threading.Thread(target=self.one.scan)
            scan.start()

            def let_end():
                opened.truncate(0)
                scan.join()

            try:
                wait_until("the large file is hashed", lambda: self.has_open(large))
                time.sleep(1)
                large.unlink()
                (self.one.files / "other name").rename(text)
                os.utime(text, ns=(before.st_atime_ns, before.st_mtime_ns))
                yield let_end
            finally:
                let_end()
                self.scan_and_wait()

    def has_open(self, path):
        """Whether the first device's Syncthing has a file open: its own process, or the one that this started."""
        own = self.one.process.pid
        started = [child for thread in Path(f"/proc/{own}/task").iterdir() for child in (thread / "children").read_text().split()]
        return any(os.path.realpath(link) == str(path.resolve())
                   for process in [own, *started] for link in Path(f"/proc/{process}/fd").iterdir())

    def test_a_scan_under_way_is_told(self):
        """Both looks see all in step under one version. When the scan ends, the file is deleted on the other device."""
        with self.scanning() as let_end:
            ran = self.run_on()
            lines = self.run_on("--lines")
            as_json = self.run_on("--json")
            self.assertTrue((self.two.files / "text").exists())
            let_end()
            wait_until("the other device has deleted it", lambda: not (self.two.files / "text").exists())
        told = " ".join(ran.stdout.split())
        self.assertEqual((ran.returncode, lines.returncode, as_json.returncode), (6, 6, 6), ran.stdout)
        self.assertIn("in step as far as audited, not known to be firm; still for", told)
        self.assertIn("in motion: 0", told)
        self.assertIn(f"not known to be firm: {FOLDER} on {self.one.id[:7]}: Syncthing was never seen idle between the looks: it was 'scanning'.", told)
        self.assertIn(f"not known to be firm: {FOLDER} on ", lines.stdout)
        self.assertIn('"firm":"not-known"', as_json.stdout)
        judged = run([sys.executable, SCHEMA], input=as_json.stdout)
        self.assertIn(judged.returncode, (0, STATUS_MISSING), judged.stdout)

    def test_the_second_look_waits(self):
        """The scan ends in that time: what it recorded is seen."""
        with self.scanning() as let_end:
            threading.Timer(5, let_end).start()
            ran = self.run_on("--still", "60", "--lines")
        self.assertEqual((ran.returncode, "text" in self.moving(ran.stdout.splitlines())), (6, True), ran.stdout + ran.stderr)
        self.assertNotIn(": busy: ", ran.stdout)

    def test_a_syncthing_that_cannot_be_asked(self):
        """Its configuration names another address than that at which it listens."""
        path = self.one.home / "config.xml"
        text, times = path.read_text(), path.stat()
        path.write_text(text.replace(f"127.0.0.1:{self.one.api_port}", "127.0.0.1:1"))
        try:
            ran = self.run_on()
        finally:
            path.write_text(text)
            os.utime(path, ns=(times.st_atime_ns, times.st_mtime_ns))
        self.assertEqual(ran.returncode, 6, ran.stdout + ran.stderr)
        self.assertIn(f"not known to be firm: {FOLDER} on {self.one.id[:7]}: Syncthing couldn't be asked whether it is idle:", " ".join(ran.stdout.split()))

    def test_a_paused_folder_and_a_stopped_device_are_at_rest(self):
        self.one.api("PATCH", f"config/folders/{FOLDER}", {"paused": True})
        self.two.stop()
        try:
            wait_until("it is paused", lambda: "<paused>true" in (self.one.home / "config.xml").read_text())
            ran = self.run_on()
        finally:
            self.two.start()
            self.one.api("PATCH", f"config/folders/{FOLDER}", {"paused": False})
            wait_until_in_step(*self.devices)
        self.assertEqual(ran.returncode, 0, ran.stdout + ran.stderr)
        self.assertIn(IN_STEP, ran.stdout)
        self.assertIn(f"not running: Syncthing on {self.two.id[:7]} ({FOLDER})", " ".join(ran.stdout.split()))


if __name__ == "__main__":
    main()
