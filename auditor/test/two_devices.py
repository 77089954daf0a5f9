#!/usr/bin/env python3
"""The audit of two real Syncthing devices on loopback.

    auditor/test/two_devices.py

Builds the audit, makes two devices that share a folder, lets them synchronise, stops them, and checks what is told of
them. It installs nothing, and says what is missing.
"""

import json
import os
import subprocess
import tempfile
import xml.etree.ElementTree as xml
from contextlib import contextmanager
from pathlib import Path

from answers import Answers
from exporting import Exporting, main, run, shown, without_firmness
from own_parts import OwnParts
from syncthing import FOLDER, files_of, wait_until_in_step


class TwoDevices(Answers, OwnParts, Exporting):
    """Two devices that send and receive."""

    @contextmanager
    def other_bytes(self):
        """The second device's text with other bytes of the same size and time."""
        path = self.two.files / "text"
        times = path.stat()
        path.write_text("hallo")
        os.utime(path, ns=(times.st_atime_ns, times.st_mtime_ns))
        try:
            yield
        finally:
            path.write_text("hello")
            os.utime(path, ns=(times.st_atime_ns, times.st_mtime_ns))

    def differs(self):
        """The verdict on the second device's text with other bytes."""
        return self.fault("StoreDiffers", "text", self.two)

    def test_in_step_is_settled(self):
        self.assertEqual(self.report(), ["settled", f"folder {FOLDER}: 6 names, 1 deleted, 2 devices"])

    def test_what_is_exported(self):
        share = self.document()["cut"]["folders"][0]["devices"][0]
        names = ["empty", "folder", "folder/large", "link", "text"]
        self.assertEqual([one["name"] for one in share["store"]], names)
        self.assertEqual({one["name"]: one["type"] for one in share["own"]},
                         dict(zip(names, [0, 1, 0, 4, 0]), doomed=0))
        self.assertEqual([one["name"] for one in share["own"] if one.get("deleted")], ["doomed"])
        self.assertEqual(len(share["views"][0]["records"]), 6)

    def test_names_that_begin_so(self):
        share = self.document("--names", "folder/", "--folder", FOLDER)["cut"]["folders"][0]["devices"][1]
        self.assertEqual([one["name"] for one in share["own"] + share["store"]], ["folder/large"] * 2)

    def test_names_of_which_there_is_none_are_refused(self):
        self.assertIn("no name begins with nobody", self.refused("--names", "nobody"))

    def test_documents_are_not_exported_into_a_folder(self):
        """All its devices would get them. That is so of a folder of these devices, whose marker may have another name, and of any other one,
        by its marker. Nothing is written, and no file is hashed for it."""
        link, other, unmarked = self.room / "link to files", self.room / "other", self.one.files / "folder"
        link.symlink_to(self.one.files)
        (other / ".stfolder").mkdir(parents=True)
        parts, homes = [self.part(device) for device in self.devices], [word for device in self.devices for word in ("--home", device.home)]
        for inputs in (parts, homes):
            for into, told in ((self.one.files / "out", f"would be in folder {FOLDER} of {self.one.id[:7]}, whose devices would all get the documents"),
                               (unmarked, f"would be in folder {FOLDER} of"), (link / "a" / "b", f"would be in folder {FOLDER} of"),
                               (other, "would be in the Syncthing folder"), (other / "a" / "b", f"{other} (.stfolder is there), whose devices")):
                before = files_of(self.room)
                ran = run([self.program, "export", *inputs, "--into", into])
                self.assertEqual((ran.returncode, ran.stdout), (2, ""), ran.stderr)
                self.assertIn(told, ran.stderr)
                self.assertIn("name a directory elsewhere", ran.stderr)
                self.assertEqual((files_of(self.room), (other / "a").exists(), (self.one.files / "a").exists()), (before, False, False))
        for path in (self.one.files / "shell.json", other / "shell.json"):
            with path.open("wb") as file:
                ran = subprocess.run([self.program, "export", *parts], stdout=file, stderr=subprocess.PIPE, text=True)
            written = path.read_bytes()
            path.unlink()
            self.assertEqual((ran.returncode, written), (2, b""), ran.stderr)
            self.assertIn("shell.json is there already, since the shell made it: take it away", ran.stderr)
        (self.one.files / ".stfolder").rename(self.room / "marker")
        try:
            ran = run([self.program, "export", *parts, "--into", self.one.files / "out"])
            self.assertEqual((ran.returncode, (self.one.files / "out").exists()), (2, False), ran.stderr)
        finally:
            (self.room / "marker").rename(self.one.files / ".stfolder")
        ran = run([self.program, "export", *parts, "--into", self.room / "beside" / "documents"])
        self.assertEqual((ran.returncode, (self.room / "beside" / "documents" / "cut-0001.json").exists()), (0, True), ran.stderr)

    def test_nothing_of_the_homes_changes(self):
        before = [files_of(device.home.parent) for device in (self.one, self.two)]
        self.document()
        self.assertEqual([files_of(device.home.parent) for device in (self.one, self.two)], before)

    def test_other_bytes_of_same_size_and_time(self):
        with self.other_bytes():
            self.assertEqual(self.verdict(), self.differs())

    def test_syncthing_takes_the_other_bytes_to_be_in_step(self):
        with self.other_bytes():
            self.start()
            self.two.scan()
            wait_until_in_step(self.one, self.two)
            self.assertTrue(self.one.shows_up_to_date() and self.two.shows_up_to_date())
            self.stop()
            self.assertEqual(self.verdict(), self.differs())
        self.assertEqual(self.verdict(), "settled")

    def test_what_is_paused_is_told(self):
        """A folder that is paused on a device, and a device that another one has paused: they are in step by now, and exchange nothing."""
        path = self.two.home / "config.xml"
        before, tree = path.read_text(), xml.parse(path)
        for paused in (tree.find("folder"), *[one for one in tree.getroot().findall("device") if one.get("id") == self.one.id]):
            for old in paused.findall("paused"):
                paused.remove(old)
            xml.SubElement(paused, "paused").text = "true"
        tree.write(path)
        try:
            status, text = self.answer()
            member = [one for one in json.loads(self.answer("--json")[1])["folders"][0]["devices"] if one["device"] == self.two.id]
        finally:
            path.write_text(before)
        self.assertEqual(status, 0)
        self.assertIn(f"\npaused: folder {FOLDER} on {self.two.id[:7]}\n", text)
        self.assertIn(f"\npaused: device {self.one.id[:7]} on {self.two.id[:7]}\n", text)
        self.assertEqual([(one["paused"], one["paused_devices"]) for one in member], [(True, [self.one.id])])
        self.assertNotIn("paused: ", self.answer()[1])

    def test_an_edit_that_no_scan_has_seen(self):
        path = self.two.files / "text"
        times = path.stat()
        os.utime(path, ns=(times.st_atime_ns, times.st_mtime_ns + 1))
        try:
            self.assertEqual(self.verdict(), self.fault("StoreUnclean", "text", self.two))
        finally:
            os.utime(path, ns=(times.st_atime_ns, times.st_mtime_ns))

    def test_running_devices_are_refused(self):
        self.assertEqual((self.while_running.returncode, self.while_running.stdout), (2, ""))
        for told in ("Syncthing runs on", "or give --home a copy of the home"):
            self.assertIn(told, self.while_running.stderr)

    def test_a_copy_of_a_home_and_its_folder(self):
        files = self.room / "copied-files"
        subprocess.run(["cp", "-a", self.two.files, files], check=True)
        home = self.copied_home(files)
        (files / "empty").unlink()
        ran = self.check_homes([self.one.home, home])
        self.assertEqual((ran.returncode, ran.stdout.splitlines()[0]),
                         (1, self.fault("StoreDiffers", "empty", self.two)), ran.stderr)
        self.assertEqual(self.verdict(), "settled")

    def copied_home(self, path):
        """A copy of the second device's home, whose folder is at this path."""
        home = Path(tempfile.mkdtemp(dir=self.room)) / "home"
        subprocess.run(["cp", "-a", self.two.home, home], check=True)
        config = home / "config.xml"
        written, changed = config.read_text(), f'path="{path}"'
        config.write_text(written.replace(f'path="{self.two.files}"', changed))
        self.assertIn(changed, config.read_text())
        return home

    def test_two_devices_in_one_directory_are_refused(self):
        with self.other_bytes():
            for path in (self.one.files, f"{self.one.files}/"):
                ran = self.check_homes([self.one.home, self.copied_home(path)])
                self.assertEqual((ran.returncode, ran.stdout), (2, ""))
                self.assertIn(f"its directory {self.one.files} is that of device", ran.stderr)

    def test_a_missing_home_is_refused_or_left_out(self):
        ran = self.check_homes([self.one.home], "--strict")
        self.assertEqual((ran.returncode, ran.stdout), (2, ""))
        self.assertIn(f"it shares the folder, and no home or part of it is given ({self.two.id})", ran.stderr)
        ran = self.check_homes([self.one.home])
        self.assertEqual((ran.returncode, ran.stdout.splitlines()[0]), (6, "settled as far as audited"))
        self.assertIn(f"left out: folder {FOLDER}, device", ran.stdout)

    def test_an_encrypted_folder_is_refused_or_left_out(self):
        self.one.configure([self.one, self.two], password="secret")
        try:
            self.assertIn("the folder is shared encrypted with it by device", self.refused())
            ran = self.check()
            self.assertEqual((ran.returncode, ran.stdout.splitlines()[:2]), (6, ["settled as far as audited", f"folder {FOLDER}: 6 names, 1 deleted, 1 devices"]))
        finally:
            self.one.configure([self.one, self.two])

    def test_sharing_without_being_shared_with_is_refused(self):
        self.two.configure([self.two])
        try:
            self.assertIn("it doesn't share the folder with device", self.refused())
            ran = self.check()
            self.assertEqual((ran.returncode, ran.stdout.splitlines()[1]), (6, f"folder {FOLDER}: 6 names, 1 deleted, 1 devices"), ran.stderr)
        finally:
            self.two.configure([self.one, self.two])

    def test_a_name_that_is_not_utf8_is_refused_or_left_out(self):
        path = os.path.join(os.fsencode(self.two.files), b"odd\xff")
        open(path, "xb").close()
        try:
            self.assertIn(r"name '[not-for-typing:odd\xff]': its name", self.refused())
            ran = self.check()
            self.assertEqual((ran.returncode, ran.stdout.splitlines()[0]), (6, "settled as far as audited"))
        finally:
            os.remove(path)

    def test_other_permissions_are_told_beside_the_verdict(self):
        path = self.two.files / "text"
        path.chmod(0o600)
        try:
            lines = self.report()
            self.assertEqual(lines[0], "settled")
            self.assertIn(f"{self.number(self.two)} index 0644 disk 0600", lines[2])
            with self.other_bytes():
                lines = self.report()
                self.assertEqual(lines[0], self.differs())
                self.assertIn("disk 0600", lines[3])
        finally:
            path.chmod(0o644)

    def test_a_fifo_is_refused_or_left_out(self):
        path = self.one.files / "fifo"
        os.mkfifo(path)
        try:
            self.assertIn('name fifo: it is no file, directory or symlink', self.refused())
            self.assert_left_out("fifo", "special")
        finally:
            path.unlink()

    def test_ignored_names_are_refused_or_left_out(self):
        path = self.two.files / ".stignore"
        path.write_text("emp*\n")
        try:
            self.assertIn('name empty: it is ignored there by .stignore', self.refused())
            self.assert_left_out("empty", "ignored")
        finally:
            path.unlink()

    def test_what_each_device_ignores_is_outside_the_folder(self):
        paths = [device.files / name for device in (self.one, self.two) for name in (".stignore", "scratch")]
        for path in paths:
            path.write_text("scratch\n")
        try:
            lines = self.report()
            self.assertEqual((lines[0], lines[2]), ("settled", f"ignored: {FOLDER} 1 names, 8 bytes, on no device's index"))
            parts = [self.part(one) for one in self.devices]
            self.assertEqual(without_firmness(self.check_parts(parts).stdout.splitlines())[:3], lines[:3])
            for path in parts:
                self.assertNotIn("scratch", "".join(shown(self.program, path)))
        finally:
            for path in paths:
                path.unlink()

    def test_patterns_that_cannot_be_read_are_refused(self):
        path = self.two.files / ".stignore"
        path.write_text("#include nowhere\n")
        try:
            self.assertIn(f"{path} can't be read", self.refused())
        finally:
            path.unlink()

    def test_a_file_over_the_limit_of_bytes(self):
        path = self.one.files / "huge"
        with path.open("wb") as file:
            file.truncate((64 << 20) + 1)
        try:
            self.assertIn('name huge: a document with bytes has files of at most', self.refused("--bytes"))
            self.assertEqual(self.check().stdout.splitlines()[0], self.fault("NotWinner", "huge"))
        finally:
            path.unlink()

    def test_usage(self):
        for words in ((), ("now",), ("check",), ("part",), ("check", "--leave-out", "everything", "x"), ("check", "--bytes", "x"),
                      ("check", "--lines", "--json", "x")):
            self.assertEqual(run([self.program, *words]).returncode, 3, words)
        asked = run([self.program, "--help"])
        self.assertEqual((asked.returncode, asked.stdout[:6], asked.stderr), (0, "usage:", ""))
        asked = run([self.program, "--version"])
        self.assertEqual((asked.returncode, asked.stdout[:16], asked.stderr), (0, "syncthing-audit ", ""))

    def test_an_audit_without_its_program(self):
        ran = self.check("--syncaudit", "/nowhere/syncaudit")
        self.assertEqual((ran.returncode, ran.stdout), (127, ""))
        self.assertIn("/nowhere/syncaudit can't be run", ran.stderr)

    def test_an_audit_by_the_environment(self):
        os.environ["SYNCAUDIT"] = self.auditor
        try:
            ran = self.on_homes("check", [device.home for device in self.devices], "--lines")
            self.assertEqual(ran.stdout.splitlines()[0], "settled")
        finally:
            del os.environ["SYNCAUDIT"]

    def test_some_names_and_all(self):
        with self.other_bytes():
            for names, said in (("e", "settled"), ("text", self.differs())):
                self.assertEqual(self.verdict("--names", names), said)


if __name__ == "__main__":
    main()
