#!/usr/bin/env python3
"""Audits of two real Syncthing devices with a history: rot that Syncthing takes for a change and sends to all, and what is new from audit to
audit.

    auditor/test/history.py
"""

import json
import os
import re
import shlex
import shutil
import sys

from answers import SCHEMA, STATUS_MISSING
from exporting import Exporting, main, run
from syncthing import wait_until


class History(Exporting):
    """Two devices in step, and a history beside them."""

    def setUp(self):
        super().setUp()
        self.kept = self.room / self.id().rpartition(".")[2]

    def audit(self, *words):
        """An audit of all homes that is kept."""
        return self.on_homes("check", [device.home for device in self.devices], "--syncaudit", self.auditor, "--history", self.kept, *words)

    def since(self):
        """What the history says to programs, and the status."""
        ran = self.audit("--json")
        checked = run([sys.executable, SCHEMA], input=ran.stdout)
        self.assertIn(checked.returncode, (0, STATUS_MISSING), checked.stdout)
        return json.loads(ran.stdout)["since"], ran.returncode

    def rot_with_its_time(self, path):
        """Changes a byte of a file under its size and time, and gives what puts it back."""
        before, times = path.read_bytes(), path.stat()

        def put(data):
            path.write_bytes(data)
            os.utime(path, ns=(times.st_atime_ns, times.st_mtime_ns))

        put(b"j" + before[1:])
        return lambda: put(before)


class RotThatSpread(History):
    """Rot in a file whose mode changes: Syncthing's scan takes it for a change of bytes, and sends it to all devices under the old time."""

    @classmethod
    def synchronise(cls):
        super().synchronise()
        cls.one.scan()

    def test_bytes_that_changed_everywhere_are_told(self):
        """The devices are in step and firm again, and the history alone knows better."""
        first, status = self.since()
        self.assertEqual((status, first.get("audit_before"), first["bytes_changed_everywhere_count"]), (0, None, 0))
        self.assertEqual({read["files"] for read in first["read"]}, {3})
        one, two = self.one.files / "text", self.two.files / "text"
        time = two.stat().st_mtime_ns
        put_back = self.rot_with_its_time(one)
        one.chmod(0o600)
        self.look_before_it_spreads()
        self.start()
        try:
            wait_until("the rot is on the other device", lambda: two.read_bytes() == one.read_bytes())
            wait_until("both are in step", lambda: self.one.is_in_step_with(self.two) and self.two.is_in_step_with(self.one))
        finally:
            self.stop()
        self.assertEqual(two.stat().st_mtime_ns, time)
        self.assertEqual(self.report()[0], "settled")
        ran = self.audit()
        self.assertEqual(ran.returncode, 6, ran.stderr)
        self.assertIn("1 file has other bytes than before on all devices that have it, under one time and size", ran.stdout)
        self.assertRegex(ran.stdout, r"  text in docs: its bytes changed between .* on \w{7}, \w{7}\. If nobody changed it, look .*: syncthing-audit find --history \S+ --folder docs text DIR\.")
        self.assertIn("new: text in docs (BytesChangedEverywhere), since", ran.stdout)
        told, = self.since()[0]["bytes_changed_everywhere"]
        self.assertEqual((told["name"], told["size"], sorted(told["devices"])), ("text", 5, sorted(device.id for device in self.devices)))
        self.assertRegex(self.audit("--lines").stdout, r"\nchanged everywhere: docs text between \S+ and \S+\n")
        self.look_in_backups()
        put_back()
        self.start()
        try:
            self.one.scan()
            one.touch()
            self.one.scan()
            wait_until("the edit is on the other device", lambda: two.read_bytes() == b"hello")
            wait_until("both are in step", lambda: self.one.is_in_step_with(self.two) and self.two.is_in_step_with(self.one))
        finally:
            self.stop()
        self.assertEqual(self.since()[0]["bytes_changed_everywhere_count"], 0)


    def look_before_it_spreads(self):
        """The scan has recorded the rot, and the other device has the bytes before. The answer takes it for an edit, and the history doesn't."""
        self.one.start()
        try:
            self.one.scan()
        finally:
            self.one.stop()
        ran = self.audit()
        self.assertEqual(ran.returncode, 1, ran.stderr)
        self.assertIn("1 file has other bytes than before where it is recorded so, under one time and size, and devices that lack it take it", ran.stdout)
        place = self.one.id[:7]
        self.assertRegex(ran.stdout, rf"(?m)^  text in docs: its bytes changed between .* on {place}, and are recorded there\. If nobody changed it, first copy it elsewhere")
        self.assertRegex(ran.stdout, rf"(?m)^  new: text in docs on {place} \(.*BytesChangedAndRecorded")
        self.assertRegex(" ".join(ran.stdout.split()), rf"first, on all devices but {place}: copy elsewhere what the history names above \(1 file\), ")
        told, = self.since()[0]["bytes_changed_and_recorded"]
        self.assertEqual((told["name"], told["devices"]), ("text", [self.one.id]))
        self.assertRegex(self.audit("--lines").stdout, rf"\nchanged and recorded: docs text on {self.number(self.one)} between \S+ and \S+\n")

    def look_in_backups(self):
        """The bytes before the change are found among backups, whatever their names and times are; none is told as such."""
        backups = self.room / "backups"
        (backups / "2025").mkdir(parents=True)
        words = [self.program, "find", "--history", self.kept, "--folder", "docs", "text", backups]
        (backups / "2025" / "rotten").write_bytes((self.one.files / "text").read_bytes())
        ran = run(words)
        self.assertEqual((ran.returncode, ran.stdout), (1, ""), ran.stderr)
        self.assertIn("0 files of the bytes that were read of text in docs: 1 file of that size read, 0 not looked at", ran.stderr)
        (backups / "2025" / "a good one").write_text("hello")
        ran = run(words)
        self.assertEqual((ran.returncode, ran.stdout), (0, f"'{backups}/2025/a good one'\n"), ran.stderr)
        for kept, folder, told in ((self.room / "none", "docs", "there is no history"), (self.kept, "other", "the history has no bytes of text in other")):
            ran = run([self.program, "find", "--history", kept, "--folder", folder, "text", backups])
            self.assertEqual((ran.returncode, ran.stdout), (2, ""))
            self.assertIn(told, ran.stderr)


class FaultsFromAuditToAudit(History):
    """A rotten file, from the audit that finds it first to the one that finds it mended."""

    def test_what_is_new_lasts_and_is_mended(self):
        def news():
            since, _ = self.since()
            return [sorted({fault["name"] for fault in since[kind]["first"]}) for kind in ("new", "lasting", "mended", "not_looked")]

        self.assertEqual(news(), [[], [], [], []])
        put_back = self.rot_with_its_time(self.two.files / "text")
        try:
            self.assertEqual(news(), [["text"], [], [], []])
            self.assertEqual(news(), [[], ["text"], [], []])
            other, _ = json.loads(self.audit("--json", "--names", "folder").stdout)["since"], 0
            self.assertEqual([fault["name"] for fault in other["not_looked"]["first"]], ["text"])
        finally:
            put_back()
        ran = self.audit()
        self.assertRegex(ran.stdout, r"since the audit of .*: 0 faults are new, 1 is mended, 0 last\n  mended: text in docs on \w{7} \(StoreDiffers\), since ")
        self.assertEqual(news(), [[], [], [], []])

    def test_a_device_that_is_not_asked_had_the_recorded_bytes(self):
        """The one device is audited alone: the advice names the other one, which had them when it was read, before backups."""
        def alone():
            ran = self.on_homes("check", [self.two.home], "--syncaudit", self.auditor, "--history", self.kept)
            self.assertEqual(ran.returncode, 1, ran.stderr)
            return " ".join(ran.stdout.split())

        put_back = self.rot_with_its_time(self.two.files / "text")
        try:
            told = alone()
            self.assertIn(" isn't asked, and may have it.", told)
            self.assertNotIn("had what is recorded", told)
            self.audit()
            self.assertRegex(alone(), r"to do: look on \S+ first, before Syncthing starts there: \S+ had what is recorded when it was read on .*, and isn't asked now\. .*to do: look among old versions")
        finally:
            put_back()

    def test_a_history_in_a_folder_is_refused(self):
        self.kept = self.one.files / "history"
        ran = self.audit()
        self.assertEqual((ran.returncode, ran.stdout), (2, ""))
        self.assertIn("whose devices would all get the history: name a directory elsewhere", ran.stderr)
        self.assertFalse(self.kept.exists())


class FilesThatAreGone(History):
    """A device gets an empty directory with a marker while its index is kept: Syncthing deletes all files on all devices, and these are in step."""

    def test_an_empty_directory_with_a_marker(self):
        self.assertNotIn("emptied", self.since()[0])
        self.rot_with_its_time(self.one.files / "text")
        self.assertEqual(self.audit().returncode, 1)
        shutil.rmtree(self.two.files)
        (self.two.files / ".stfolder").mkdir(parents=True)
        self.start()
        try:
            wait_until("the deletions are on the other device", lambda: not (self.one.files / "text").exists())
            wait_until("both are in step", lambda: self.one.is_in_step_with(self.two) and self.two.is_in_step_with(self.one))
        finally:
            self.stop()
        self.assertEqual(self.report()[0], "settled")
        ran = self.audit()
        self.assertEqual(ran.returncode, 6, ran.stderr)
        self.assertRegex(ran.stdout, r"^GONE: 3 of 3 files in docs went from all devices that were asked after ")
        self.assertIn("to do: if nobody wanted that: stop Syncthing on all devices of the folder, before it cleans old versions", " ".join(ran.stdout.split()))
        self.assertRegex(ran.stdout, r"(?m)^  deleted since: text in docs on \w{7} \(StoreDiffers\), since .*; read last: .* had 5 bytes on .*, .* had 5 bytes on ")
        self.assertNotIn("  mended: ", ran.stdout)
        since, status = self.since()
        emptied, = since["emptied"]
        self.assertEqual((status, emptied["new"], emptied["files"], emptied["of"], emptied["unasked"], len(emptied["first"])), (6, False, 3, 3, [], 3))
        self.assertRegex(self.audit("--lines").stdout, r"\ngone: docs 3 of 3 files between \S+ and \S+\n")
        backup = self.room / "backup"
        backup.mkdir()
        (backup / "text").write_text("hello")
        ran = run([self.program, "find", "--history", self.kept, "--folder", "docs", "text", backup])
        self.assertEqual((ran.returncode, ran.stdout), (0, f"{backup}/text\n"), ran.stderr)


class FilesThatWereWantedToGo(History):
    """Half of a folder is deleted on purpose. Somebody says so by the command that the answer tells: then it isn't told, and what goes later is."""

    def photos_of(self, device):
        return {path.name for path in device.files.glob("photo *")}

    def delete(self, names):
        self.start()
        try:
            for name in names:
                (self.one.files / name).unlink()
            self.one.scan()
            wait_until("the deletions are on the other device", lambda: self.photos_of(self.one) == self.photos_of(self.two))
            wait_until("both are in step", lambda: self.one.is_in_step_with(self.two) and self.two.is_in_step_with(self.one))
        finally:
            self.stop()

    def gone(self):
        """The status, and the command that says that it was wanted."""
        ran = self.audit()
        commands = re.findall(r"(?m)^  if it was wanted: syncthing-audit (wanted .*)$", ran.stdout)
        self.assertEqual((len(commands), ran.stdout.startswith("GONE: ")), (len(commands), bool(commands)), ran.stdout)
        return ran.returncode, commands

    def say(self, command):
        return run([self.program, *shlex.split(command)])

    def test_deletions_that_were_wanted(self):
        names = [f"photo {number:02}" for number in range(40)]
        for name in names:
            (self.one.files / name).write_text(name)
        self.delete([])
        self.assertEqual(self.gone(), (0, []))
        self.delete(names[:24])
        status, (first,) = self.gone()
        self.assertEqual(status, 6)
        self.delete(names[24:35])
        status, commands = self.gone()
        self.assertEqual((status, commands[0], len(commands)), (6, first, 2), "more files went before anybody said anything")
        ran = self.say(first)
        self.assertEqual(ran.returncode, 0, ran.stderr)
        self.assertRegex(ran.stdout, r"^24 of 43 files in docs went .* It was wanted, so it isn't told any more\. What goes later is told\n$")
        self.assertEqual(self.say(first).returncode, 2, "it isn't told any more")
        self.assertEqual(self.gone(), (6, commands[1:]), "what went later is told")
        self.assertEqual(self.say(commands[1]).returncode, 0)
        self.assertEqual(self.gone(), (0, []))
        self.delete(names[35:])
        self.assertEqual(self.gone()[0], 6, "most that were left went later")


if __name__ == "__main__":
    main()
