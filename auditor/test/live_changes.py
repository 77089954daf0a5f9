#!/usr/bin/env python3
"""The audit of real Syncthing devices on loopback while a file changes all the time, or is being received.

    auditor/test/live_changes.py
"""

import os
import threading

from exporting import main
from large_folders import MEGA
from live_looks import Live, rot
from syncthing import FOLDER, wait_until


class LiveWriter(Live):
    """Two devices that watch their folders, and a writer."""

    watches = True

    def test_a_writer_that_changes_one_file_all_the_time(self):
        ended = threading.Event()

        def write():
            number = 0
            while not ended.wait(0.1):
                number += 1
                (self.one.files / "busy").write_text(f"change {number}")
        writer = threading.Thread(target=write)
        writer.start()

        def goes_on():
            before = (self.one.files / "busy").read_text()
            wait_until("it is changed again", lambda: (self.one.files / "busy").read_text() != before)
        try:
            wait_until("the other device has it", (self.two.files / "busy").exists)
            for _ in range(5):
                status, lines = self.look(goes_on)
                self.assertEqual((status, lines[0], self.moving(lines)), (6, "settled as far as audited", {"busy"}))
                self.assertEqual(lines[1], f"folder {FOLDER}: 6 names, 1 deleted, 2 devices")
            with rot(self.two.files / "folder" / "large", 77):
                status, lines = self.look(goes_on)
            self.assertEqual((status, lines[0], self.moving(lines)), (1, self.fault("StoreDiffers", "folder/large", self.two), {"busy"}))
        finally:
            ended.set()
            writer.join()
        self.scan_and_wait()
        wait_until("nothing is in motion", lambda: self.look()[0] == 0)


class LiveReceiver(Live):
    """Two devices, the second of which receives slowly."""

    # So slow that the file isn't there before the looks are over.
    options = {"maxRecvKbps": "200", "limitBandwidthInLan": "true"}

    def received(self):
        """How many bytes the second device has received."""
        return self.two.api("GET", "system/connections")["connections"][self.one.id]["inBytesTotal"]

    def goes_on(self):
        """Waits until some more blocks are received."""
        before = self.received()
        wait_until("more is received", lambda: self.received() > before + MEGA)

    def test_a_large_file_that_is_being_received(self):
        self.one.files.joinpath("huge").write_bytes(os.urandom(100 * MEGA))
        self.one.scan()
        wait_until("it is begun", lambda: list(self.two.files.glob(".syncthing.huge.tmp")))
        self.goes_on()
        status, lines = self.look(self.goes_on)
        self.assertFalse((self.two.files / "huge").exists(), "it was received too soon")
        self.assertEqual((status, lines[0], self.moving(lines)), (6, "settled as far as audited", {"huge"}))
        self.assertIn(f"in motion: {FOLDER} huge on {self.number(self.two)}: receiving", lines)


if __name__ == "__main__":
    main()
