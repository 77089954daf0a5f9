#!/usr/bin/env python3
"""The audit of real Syncthing devices on loopback that go on running: in step, with other bytes, apart, and looked at in a
wrong order.

    auditor/test/live_devices.py
"""

import os
import signal
import subprocess

from exporting import IN_STEP, main, put_replies, run
from live_looks import Live, rot
from syncthing import FOLDER, SECONDS_TO_WAIT, wait_until, wait_until_in_step


class LiveDevices(Live):
    """Three devices in step, that scan on request alone."""

    names = ("one", "two", "three")

    def test_in_step(self):
        status, lines = self.look()
        self.assertEqual((status, lines), (0, ["settled", f"folder {FOLDER}: 6 names, 1 deleted, 3 devices", "in motion: 0 names"]))
        ran = run([self.program, "check", *self.looks(), "--syncaudit", self.auditor])
        self.assertRegex(ran.stdout.splitlines()[0],
                         rf"^{FOLDER}: {IN_STEP}; still for \d+ s: 6 names \(1 deleted\), .* hashed on .*; in motion: 0$")

    def test_other_bytes_while_running(self):
        with rot(self.two.files / "folder" / "large", 1000):
            self.two.scan()
            self.assertTrue(self.two.shows_up_to_date())
            status, lines = self.look()
        self.assertEqual((status, lines[0], self.moving(lines)), (1, self.fault("StoreDiffers", "folder/large", self.two), set()))
        self.assertEqual(self.look()[0], 0)

    def test_what_changes_between_the_looks_is_in_motion(self):
        def change():
            (self.one.files / "text").write_text("changed between")
            (self.one.files / "new").write_text("new")
            self.scan_and_wait()
        status, lines = self.look(change)
        self.assertEqual((status, lines[0], self.moving(lines)), (6, "settled as far as audited", {"text", "new"}))
        self.assertIn(f"folder {FOLDER}: 5 names, 1 deleted, 3 devices", lines)
        status, lines = self.look()
        self.assertEqual((status, self.moving(lines)), (0, set()))

    def test_the_sum_of_exported_documents_says_the_same(self):
        documents = self.room / "documents"
        path = self.one.files / "waits, too"
        path.write_text("waits")
        try:
            with rot(self.two.files / "folder" / "large", 1000):
                status, lines = self.look()
        finally:
            path.unlink()
        ran = run([self.program, "export", *self.looks(), "--into", documents])
        self.assertEqual(ran.returncode, 0, ran.stderr)
        self.assertIn("in motion: docs waits,\\x20too on ", ran.stderr)
        put_replies(documents)
        ran = run([self.program, "sum", documents, "--lines"])
        self.assertEqual((ran.returncode, self.without_times(ran)), (status, lines))

    def test_what_each_device_ignores_is_outside_the_folder(self):
        """Both looks have a hash of its name."""
        paths = [device.files / name for device in self.devices for name in (".stignore", "scratch")]
        for path in paths:
            path.write_text("scratch\n")
        try:
            status, lines = self.look()
        finally:
            for path in paths:
                path.unlink()
        self.assertEqual((status, self.moving(lines)), (0, set()), lines)
        self.assertIn(f"ignored: {FOLDER} 1 names, 8 bytes, on no device's index", lines)

    def test_what_waits_for_a_scan_is_in_motion(self):
        path = self.one.files / "waits"
        path.write_text("waits")
        try:
            status, lines = self.look()
        finally:
            path.unlink()
        self.assertEqual((status, lines[3:]), (6, [f"in motion: {FOLDER} waits on {self.number(self.one)}: unscanned"]))

    def test_bytes_that_change_with_their_time_put_back(self):
        """Nobody sees that by size and time: it is in motion, and the next run says what is wrong."""
        path = self.three.files / "folder" / "large"
        self.begin()
        with rot(path, 5):
            self.end()
            status, lines = self.told()
            self.assertEqual((status, self.moving(lines)), (6, {"folder/large"}))
            self.assertEqual(self.look()[1][0], self.fault("StoreDiffers", "folder/large", self.three))

    def test_a_wrong_order_is_found(self):
        self.begin(self.one, self.two)
        self.path(self.three, "token").unlink(missing_ok=True)
        ran = self.try_end(self.one, self.one, self.two, words=["--strict"])
        self.assertEqual(ran.returncode, 2)
        self.assertIn(f"({self.three.id}), with which folders are shared", ran.stderr)
        self.begin(self.three)
        self.end()
        self.assertEqual(self.told()[0], 0)
        self.begin(self.three)
        ran = self.check_parts(self.looks())
        self.assertEqual((ran.returncode, ran.stdout), (2, ""))
        self.assertIn("its second look has no token of this first look", ran.stderr)
        self.end(self.three)
        ran = self.check_parts(self.looks(), "--strict")
        self.assertEqual((ran.returncode, ran.stdout), (2, ""))
        self.assertIn(" has no token of its first look", ran.stderr)
        self.assertEqual(self.told()[0], 6)
        self.end(self.one, self.two)
        self.assertEqual(self.told()[0], 0)

    def test_looks_that_do_not_belong_together(self):
        self.begin()
        self.end()
        ran = self.check_parts(self.looks()[:-1])
        self.assertEqual((ran.returncode, ran.stdout), (2, ""))
        self.assertIn("the second one at that device isn't given", ran.stderr)
        self.three.stop()
        stopped = self.part(self.three)
        self.three.start()
        wait_until_in_step(*self.devices)
        ran = self.check_parts([*self.looks()[:-2], stopped])
        self.assertEqual((ran.returncode, ran.stdout), (2, ""))
        self.assertIn("make all parts in the same way", ran.stderr)

    def test_a_device_that_reconnects_in_the_middle(self):
        with self.apart(self.one, self.two):
            (self.one.files / "text").write_text("changed while apart")
            self.one.scan()
            wait_until("the third device has it", lambda: self.three.is_in_step_with(self.one))
            status, lines = self.look(lambda: self.reconnect(self.one, self.two))
            self.assertEqual((status, lines[0], self.moving(lines)), (6, "settled as far as audited", {"text"}))
        self.assertEqual(self.look()[0], 0)

    def test_devices_that_are_not_connected(self):
        """What one recorded last hasn't reached the other: it may be on its way, so it isn't called settled."""
        with self.apart(self.one, self.two):
            (self.one.files / "text").write_text("changed while apart, too")
            self.one.scan()
            wait_until("all have it by way of the third", lambda: self.three.is_in_step_with(self.one) and (
                self.two.files / "text").read_text() == "changed while apart, too" and self.two.shows_up_to_date())
            status, lines = self.look()
        self.assertEqual((status, lines[0], self.moving(lines)), (6, "settled as far as audited", set()))
        self.assertIn(f"not heard of: {FOLDER} on {self.number(self.two)} of {self.number(self.one)}: 1 names", lines)

    def test_nothing_is_left_behind(self):
        room = self.room / "temporary"
        room.mkdir()
        for number in (signal.SIGINT, signal.SIGTERM, signal.SIGHUP):
            process = subprocess.Popen([self.program, "part", "--begin", "--home", self.one.home, "-o", self.path(self.one, "begin")],
                                       env={**os.environ, "TMPDIR": str(room)}, stdout=subprocess.DEVNULL, stderr=subprocess.DEVNULL)
            wait_until("something is there", lambda: process.poll() is not None or list(room.iterdir()))
            process.send_signal(number)
            process.wait(SECONDS_TO_WAIT)
            self.assertEqual(list(room.iterdir()), [])

    def test_no_lock_is_taken_and_nothing_is_written_in_the_home(self):
        copied = self.room / "copied-home"
        self.three.stop()
        try:
            subprocess.run(["cp", "-a", self.three.home, copied], check=True)
            before = {path: (path.stat().st_ctime_ns, path.stat().st_mtime_ns) for path in copied.rglob("*")}
            run([self.program, "part", "--begin", "--home", copied, "-o", self.room / "copied.begin"], check=True)
            self.assertEqual({path: (path.stat().st_ctime_ns, path.stat().st_mtime_ns) for path in copied.rglob("*")}, before)
        finally:
            self.three.start()
            wait_until_in_step(*self.devices)


if __name__ == "__main__":
    main()
