#!/usr/bin/env python3
"""The audit of real devices that have names which Syncthing doesn't take for the folder's: a whitelist in .stignore, and names of Syncthing's
temporary files.

    auditor/test/outside.py
"""

import os
import time

from exporting import Exporting, main, run, without_devices
from syncthing import FOLDER, version_of, wait_until

WHITELIST = "!/keep/*.bin\n*\n"
SECONDS_OF_A_DAY = 86400


class Whitelist(Exporting):
    """Two devices whose .stignore takes in some files below a directory, and ignores all else, the directory, too."""

    @classmethod
    def synchronise(cls):
        for one in cls.devices:
            (one.files / ".stignore").write_text(WHITELIST)
            (one.files / "other").mkdir()
            (one.files / "other" / "scratch").write_text("scratch")
        (cls.one.files / "keep").mkdir()
        (cls.one.files / "keep" / "1.bin").write_text("hello")
        cls.scan_and_wait()
        (cls.two.files / "keep" / "notes").write_text("notes")
        cls.two.scan()
        cls.is_119 = all(version_of(one.program).startswith("syncthing v1.19") for one in cls.devices)

    def setUp(self):
        """Of devices of 1.29 an index may have the directory as ignored. That changes as they run."""
        super().setUp()
        self.marked = "name keep: it is ignored there by .stignore" in self.check().stderr
        self.assertFalse(self.marked and self.is_119)

    def words(self):
        """The flag that is needed where an index has the directory as ignored."""
        return ("--leave-out", "ignored") if self.marked else ()

    def assert_told(self, lines, names):
        """That nothing fails, and so many names aren't the folder's. The directory is audited, or left out where an index has it as ignored."""
        verdict, count, left = ("settled as far as audited", 1, {f"left out: {FOLDER} keep"}) if self.marked else ("settled", 2, set())
        self.assertEqual(lines[:2], [verdict, f"folder {FOLDER}: {count} names, 0 deleted, 2 devices"])
        self.assertEqual({line.split(" on ")[0] for line in lines[2:-1]}, left)
        self.assertEqual(lines[-1], f"ignored: {FOLDER} {names} names, 12 bytes, on no device's index")

    def test_the_directory_is_the_folder_s(self):
        """Syncthing 1.19 has a record of it, as of what is taken in below it. Of devices of 1.29 the directory alone may be refused."""
        if self.marked:
            self.assertEqual(self.refused().count(" name "), 1)
        self.assert_told(self.report(*self.words()), 3)
        self.assertEqual(self.check_parts([self.part(one) for one in self.devices], *self.words()).returncode, 6 if self.marked else 0)

    def test_a_directory_with_nothing_that_is_taken_in_is_outside(self):
        path = self.one.files / "keep.bin"
        path.mkdir()
        self.addCleanup(path.rmdir)
        self.assert_told(self.report(*self.words()), 4)

    def test_faults_of_what_is_taken_in(self):
        path = self.two.files / "keep" / "1.bin"
        times = path.stat()
        path.write_text("hallo")
        os.utime(path, ns=(times.st_atime_ns, times.st_mtime_ns))
        self.assertEqual(self.verdict(*self.words()), self.fault("StoreDiffers", "keep/1.bin", self.two))
        path.write_text("hello")
        os.utime(path, ns=(times.st_atime_ns, times.st_mtime_ns))
        if self.marked:
            return
        path.parent.chmod(0o700)
        self.addCleanup(path.parent.chmod, 0o755)
        (line,) = (line for line in self.report() if line.startswith("permissions: "))
        self.assertIn(f" {self.number(self.two)} index 0755 disk 0700", line)

    def test_devices_that_run(self):
        """The directory is still, as what is below it is."""
        self.start()
        self.addCleanup(self.stop)
        wait_until("the devices are in step", lambda: are_in_step(self))
        ran = run([self.program, "run", self.one.home, self.two.home, "--still", "0", "--lines", "--syncaudit", self.auditor, "--leave-out", "ignored"])
        moved = {line.split(" on ")[0] for line in ran.stdout.splitlines() if line.startswith("in motion: ")}
        if self.is_119:
            self.assertEqual((ran.returncode, moved), (0, set()), ran.stdout + ran.stderr)
        self.assertIn(ran.returncode, (0, 6), ran.stdout + ran.stderr)
        self.assertLessEqual(moved, {f"in motion: {FOLDER} keep"})


class WhitelistOnOneDevice(Exporting):
    """Two devices, of which the second one has such a whitelist."""

    @classmethod
    def synchronise(cls):
        (cls.two.files / ".stignore").write_text(WHITELIST)
        (cls.one.files / "keep").mkdir()
        (cls.one.files / "keep" / "1.bin").write_text("hello")
        (cls.one.files / "keep" / "2.txt").write_text("text")
        cls.one.scan()
        wait_until("the file is on both", lambda: (cls.two.files / "keep" / "1.bin").exists() and are_in_step(cls))
        cls.two.scan()
        wait_until("both know that", lambda: are_in_step(cls) and cls.one.knows_all_of(cls.two))

    def test_what_is_ignored_is_left_out_and_the_directory_is_not(self):
        refused = self.refused()
        self.assertIn("name keep/2.txt: it is ignored there by .stignore", refused)
        self.assertNotIn("name keep:", refused)
        lines = self.report("--leave-out", "ignored")
        self.assertEqual(lines[:2], ["settled as far as audited", f"folder {FOLDER}: 2 names, 0 deleted, 2 devices"])
        self.assertEqual({line.split(" on ")[0] for line in lines[2:]}, {f"left out: {FOLDER} keep/2.txt"})


class TemporaryNames(Exporting):
    """Two devices. On the second one there are files, and a directory, with names that Syncthing takes for its temporary files."""

    def test_they_are_told_and_never_sent(self):
        """A scan deletes an old file of such a name, and no other one."""
        young, old, directory = (self.two.files / name for name in (".syncthing.notes", "folder/~syncthing~report.docx.tmp", ".syncthing.d"))
        young.write_text("notes")
        old.write_text("report")
        a_while_ago = time.time() - 2 * SECONDS_OF_A_DAY
        os.utime(old, (a_while_ago, a_while_ago))
        directory.mkdir()
        self.assertEqual(self.told(), self.line(3, 11))
        self.assertEqual(without_devices(self.check_parts([self.part(one) for one in self.devices]).stdout.splitlines())[-1], self.line(3, 11))
        self.start()
        self.addCleanup(self.stop)
        self.two.scan()
        wait_until("the devices are in step", lambda: are_in_step(self) and self.one.knows_all_of(self.two))
        self.assertEqual([path.exists() for path in (young, old, directory)], [True, False, True])
        self.assertEqual([path.name for path in self.one.files.rglob("*syncthing*")], [])
        ran = run([self.program, "run", self.one.home, self.two.home, "--still", "0", "--lines", "--syncaudit", self.auditor])
        self.assertEqual((ran.returncode, without_devices(ran.stdout.splitlines())[-1]), (0, self.line(2, 5)), ran.stdout + ran.stderr)

    def told(self):
        """The last line of what is told, where nothing fails."""
        lines = self.report()
        self.assertEqual(lines[0], "settled")
        return lines[-1]

    def line(self, names, size):
        """What is told of so many such names."""
        return f"temporary: {FOLDER} {names} names, {size} bytes on {self.number(self.two)}"


def are_in_step(case):
    """Whether both devices are connected, and each takes itself and the other one to be complete; they may ignore other names."""
    return case.one.is_in_step_with(case.two) and case.two.is_in_step_with(case.one)


if __name__ == "__main__":
    main()
