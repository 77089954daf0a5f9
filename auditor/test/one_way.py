#!/usr/bin/env python3
"""The audit of two real Syncthing devices on loopback, of which one only receives or only sends.

    auditor/test/one_way.py
"""

import json
import os

from exporting import Exporting, main
from syncthing import FOLDER, wait_until, wait_until_in_step


class OneWay(Exporting):
    """Devices of which one only receives or only sends."""

    @classmethod
    def lost_by(cls, act, *devices):
        """The names that lose something by what may be chosen for the whole folder, of all devices or of these alone. What changes the end of no name
        isn't told as a choice."""
        ran = cls.on_homes("check", [device.home for device in devices or cls.devices], "--syncaudit", cls.auditor, "--json")
        choices = json.loads(ran.stdout)["folders"][0]["outlook"].get("choices", [])
        return {loss["name"] for choice in choices if choice["act"] == act for loss in choice["loses"]}


class ReceiveOnly(OneWay):
    """Local changes on a device that only receives."""

    @classmethod
    def setUpClass(cls):
        super().setUpClass()
        cls.two.configure([cls.one, cls.two], kind="receiveonly")
        cls.start()
        (cls.two.files / "text").write_text("my own")
        (cls.two.files / "added").write_text("added")
        (cls.two.files / "empty").unlink()
        cls.two.scan()
        wait_until("the other device knows of the changes", lambda: cls.one.knows_all_of(cls.two))
        cls.stop()

    def test_local_changes_are_local_only(self):
        for name in ("text", "empty"):
            self.assertEqual(self.verdict("--names", name), self.fault("LocalOnly", name, self.two))

    def test_what_nobody_else_has_has_no_winner(self):
        both = ", ".join(sorted(map(str, (self.number(self.one), self.number(self.two))), key=int))
        self.assertEqual(self.report("--names", "added"),
                         [self.fault("NotWinner", "added"), f"folder {FOLDER}: 1 names, 0 deleted, 2 devices",
                          self.failure("NotWinner", "added"),
                          f"no winner: {FOLDER} added on {self.number(self.two)}: local change",
                          f"not asked for: names of {FOLDER} that don't begin with added",
                          f"first: on {both}: not-asked"])

    def test_they_go_as_over_the_wire(self):
        shares = {share["device"]: share for share in self.document()["cut"]["folders"][0]["devices"]}
        own = shares[self.numbers[self.two.id]]["own"]
        viewed = shares[self.numbers[self.one.id]]["views"][0]["records"]
        self.assertEqual(own, viewed)
        self.assertEqual([(one["name"], one["version"]) for one in own if one.get("invalid")],
                         [("empty", []), ("text", [])])

    def test_a_person_reads_what_reverting_does(self):
        """It loses what was added and what was changed, and nothing of what was deleted."""
        ran = self.on_homes("check", [device.home for device in self.devices], "--syncaudit", self.auditor)
        self.assertEqual(ran.returncode, 1, ran.stderr)
        entries = {entry.split("  (in ")[0]: " ".join(entry.split()) for entry in ran.stdout.split("\n\n")}
        for name in ("added", "text", "empty"):
            self.assertIn("choose for the whole folder what stands above, behind 'to choose in'", entries[name])
        self.assertIn("changed on this receive-only device", entries["text"])
        self.assertIn("deleted on this receive-only device", entries["empty"])
        self.assertEqual(self.lost_by("revert"), {"added", "text"})

    def test_the_rest_is_settled(self):
        self.assertEqual(self.verdict("--names", "folder"), "settled")

    def test_what_has_no_winner_does_not_hide_other_bytes(self):
        path = self.one.files / "folder" / "large"
        times = path.stat()
        data = path.read_bytes()
        path.write_bytes(b"rot" + data[3:])
        os.utime(path, ns=(times.st_atime_ns, times.st_mtime_ns))
        try:
            lines = self.report()
            self.assertEqual(lines[0], self.fault("NotWinner", "added"))
            for line in (self.failure("LocalOnly", "text", self.two), self.failure("StoreDiffers", "folder/large", self.one)):
                self.assertIn(line, lines)
        finally:
            path.write_bytes(data)
            os.utime(path, ns=(times.st_atime_ns, times.st_mtime_ns))


class ReceiveOnlyOfWhatIsDeleted(OneWay):
    """A device that only receives changed a file, and the other one deleted it."""

    kinds = {"two": "receiveonly"}

    def test_reverting_deletes_it(self):
        """Real Syncthing does what the answer says of it."""
        self.two.start()
        (self.two.files / "text").write_text("my own")
        self.two.scan()
        (self.one.files / "text").unlink()
        self.one.start()
        self.one.scan()
        wait_until("the other device knows of the deletion", lambda: self.two.knows_all_of(self.one))
        self.stop()
        ran = self.on_homes("check", [device.home for device in self.devices], "--syncaudit", self.auditor)
        self.assertEqual(ran.returncode, 1, ran.stderr)
        told = " ".join(ran.stdout.split())
        self.assertIn("changed on this receive-only device, while the others have deleted it", told)
        self.assertEqual(self.lost_by("revert"), {"text"})
        self.start()
        wait_until("the devices are connected", lambda: self.two.knows_all_of(self.one))
        self.two.api("POST", f"db/revert?folder={FOLDER}")
        wait_until("the changed file is gone", lambda: not (self.two.files / "text").exists())
        self.stop()


class ReceiveOnlyThatChangedItBefore(OneWay):
    """A device that changed files while it sent, too, and that only receives now: it changed them again, and its user reverts that."""

    @classmethod
    def synchronise(cls):
        super().synchronise()
        for name in ("dropped", "changed"):
            (cls.two.files / name).write_text("of two")
        cls.two.scan()
        wait_until_in_step(cls.one, cls.two)

    def entries(self):
        """What a person reads, an entry for each file, in one line each."""
        ran = self.on_homes("check", [device.home for device in self.devices], "--syncaudit", self.auditor)
        self.assertEqual(ran.returncode, 1, ran.stderr)
        return {entry.split("  (in ")[0]: " ".join(entry.split()) for entry in ran.stdout.split("\n\n")}

    def test_reverting_keeps_it(self):
        """Real Syncthing does what the answers say of it: it keeps what the other one deleted, and shows 'Up to Date'; a copy of what was
        changed stays. A deletion by hand ends that."""
        self.two.configure(self.devices, kind="receiveonly")
        self.start()
        for name in ("dropped", "changed"):
            (self.two.files / name).write_text("changed on two")
        self.two.scan()
        (self.one.files / "dropped").unlink()
        self.one.scan()
        wait_until("the other device knows of the deletion", lambda: self.two.knows_all_of(self.one))
        self.stop()
        entries = self.entries()
        self.assertIn("choose for the whole folder what stands above", entries["changed"])
        self.assertEqual(self.lost_by("revert"), set())
        self.start()
        wait_until("the devices are connected", lambda: self.two.knows_all_of(self.one))
        self.two.api("POST", f"db/revert?folder={FOLDER}")
        wait_until("the change is reverted", lambda: (self.two.files / "changed").read_text() == "of two")
        wait_until("both show 'Up to Date'", lambda: self.one.is_in_step_with(self.two) and self.two.is_in_step_with(self.one))
        self.assertEqual((self.two.files / "dropped").read_text(), "changed on two")
        self.assertEqual([path.read_text() for path in self.two.files.glob("changed.sync-conflict-*")], ["changed on two"])
        self.stop()
        self.assertIn(f"{self.one.id[:7]}: has something else under the same version", self.entries()["dropped"])
        self.assert_a_deletion_ends_it()

    def assert_a_deletion_ends_it(self):
        """Once the file is deleted where it stands and the copy is gone, both devices are in step."""
        self.two.configure(self.devices)
        for path in ((self.two.files / "dropped"), *self.two.files.glob("changed.sync-conflict-*")):
            path.unlink()
        self.start()
        self.two.scan()
        wait_until_in_step(self.one, self.two)
        self.stop()
        self.assertEqual(self.verdict(), "settled")


class ReceiveOnlyThatKeepsItsChange(Exporting):
    """A device that only receives changed files, and these are missing on the disk of the other one. One change is recorded, the other one isn't yet."""

    kinds = {"two": "receiveonly"}

    def test_the_change_goes_before_the_deletion(self):
        """So the file stays on the device, as the answer says. Only what it hasn't changed it deletes."""
        (self.two.files / "text").write_text("my own")
        self.two.start()
        self.two.scan()
        self.two.stop()
        (self.two.files / "empty").write_text("mine, too")
        for name in ("text", "empty", "folder/large"):
            (self.one.files / name).unlink()
        fates = self.foretold()
        self.start()
        self.one.scan()
        wait_until("what isn't changed is gone", lambda: not (self.two.files / "folder/large").exists() and self.two.knows_all_of(self.one))
        self.two.scan()
        wait_until("all is taken", self.two.shows_up_to_date)
        self.stop()
        self.assert_came(fates, "text", "empty", "folder/large")
        self.assertEqual([(self.two.files / name).read_text() for name in ("text", "empty")], ["my own", "mine, too"])
        self.assertEqual([(self.one.files / name).exists() for name in ("text", "empty")], [False, False])


class OwnReceiveOnly(OneWay):
    """A folder of a device that only receives, which the device shares with nobody any more."""

    def test_reverting_deletes_what_no_other_device_has(self):
        """Real Syncthing does what the answer says of it. So nobody is told that it brings something back."""
        self.two.configure([self.two], kind="receiveonly")
        (self.two.files / "text").write_text("my own")
        (self.two.files / "empty").unlink()
        self.assertEqual(self.lost_by("revert", self.two), {"text"})
        self.two.start()
        self.two.scan()
        self.assertEqual((self.two.files / "text").read_text(), "my own")
        self.two.api("POST", f"db/revert?folder={FOLDER}")
        wait_until("the changed file is gone", lambda: not (self.two.files / "text").exists())
        self.two.stop()
        self.assertFalse((self.two.files / "empty").exists())


class OwnReceiveOnlyWithAFile(OneWay):
    """A file that no scan has seen, in a folder that a device only receives and shares with nobody."""

    def test_only_another_kind_brings_it_into_step(self):
        """After a scan it is an addition, as the answer says; once the folder sends, too, it is as any other file."""
        self.two.configure([self.two], kind="receiveonly")
        (self.two.files / "new").write_text("new")
        self.assertIn("on the disk, and no scan has seen it", self.told())
        self.assertEqual(self.lost_by("revert", self.two), {"new"})
        self.scan()
        self.assertIn("added on this receive-only device", self.told())
        self.two.configure([self.two])
        self.scan()
        ran = self.check_homes([self.two.home])
        self.assertEqual((ran.returncode, ran.stdout.splitlines()[0]), (0, "settled"), ran.stderr)

    def told(self):
        """What a person reads, in one line."""
        ran = self.on_homes("check", [self.two.home], "--syncaudit", self.auditor)
        self.assertEqual(ran.returncode, 1, ran.stderr)
        return " ".join(ran.stdout.split())

    def scan(self):
        """Has the device scan by itself."""
        self.two.start()
        self.two.scan()
        self.two.stop()


class ReceiveOnlyThatIsToSend(OneWay):
    """Local changes of a device that only receives, whose folder is made to send, too."""

    kinds = {"two": "receiveonly"}

    def test_the_later_one_stays(self):
        """That a change and what the others have are in conflict then is what the answer says. A deletion goes to all."""
        for name, seconds in (("text", -1000), ("empty", 1000)):
            path = self.two.files / name
            path.write_text("local")
            os.utime(path, (path.stat().st_mtime + seconds,) * 2)
        (self.two.files / "link").unlink()
        self.start()
        self.two.scan()
        wait_until("the other device knows of the changes", lambda: self.one.knows_all_of(self.two))
        self.stop()
        self.assertEqual(self.lost_by("send-and-receive"), {"link"})
        self.two.configure(self.devices)
        self.start()
        self.two.scan()
        wait_until("the copies are on both", lambda: all(len(list(device.files.glob("*.sync-conflict-*"))) == 2 for device in self.devices))
        wait_until_in_step(self.one, self.two)
        self.stop()
        for device in self.devices:
            self.assertEqual([(device.files / name).read_text() for name in ("text", "empty")], ["hello", "local"])
            self.assertFalse((device.files / "link").is_symlink())


class ReceiveOnlyThatSendsItsDeletion(OneWay):
    """A device that only receives, on which one file was deleted and another one added; then its folder is made to send, too."""

    kinds = {"two": "receiveonly"}

    def test_what_is_deleted_goes_to_all(self):
        """What may be chosen for the whole folder says so."""
        (self.two.files / "text").unlink()
        (self.two.files / "added").write_text("added")
        self.two.start()
        self.two.scan()
        self.two.stop()
        self.assertEqual(self.lost_by("send-and-receive"), {"text"})
        self.assertTrue((self.one.files / "text").exists())
        self.two.configure(self.devices)
        self.start()
        self.two.scan()
        wait_until("what was added is there", (self.one.files / "added").exists)
        wait_until_in_step(self.one, self.two)
        self.stop()
        self.assertFalse((self.one.files / "text").exists())
        self.assertEqual(self.verdict(), "settled")


class ReceiveOnlyThatSendsTimeAndMode(OneWay):
    """A device that only receives, on which a file has another mode, and another file a later time; then its folder is made to send, too."""

    kinds = {"two": "receiveonly"}

    def test_no_copy_is_made(self):
        """The answer says so. The later time goes to all; of the mode, which has the time of the others, one goes to all."""
        (self.two.files / "text").chmod(0o600)
        os.utime(self.two.files / "folder/large", (1800000000, 1800000000))
        self.two.start()
        self.two.scan()
        self.two.stop()
        self.assertEqual(self.lost_by("send-and-receive"), set())
        self.two.configure(self.devices)
        self.start()
        self.two.scan()
        wait_until("the later time is there", lambda: (self.one.files / "folder/large").stat().st_mtime == 1800000000)
        wait_until_in_step(self.one, self.two)
        self.stop()
        self.assertEqual(len({(device.files / "text").stat().st_mode for device in (self.one, self.two)}), 1)
        self.assertEqual([path for device in (self.one, self.two) for path in device.files.rglob("*.sync-conflict-*")], [])
        self.assertEqual(self.verdict(), "settled")


class SendOnly(Exporting):
    """A device that only sends, and another that changed a file."""

    def test_out_of_step(self):
        self.one.configure([self.one, self.two], kind="sendonly")
        self.start()
        (self.two.files / "text").write_text("changed on two")
        self.two.scan()
        wait_until("the other device knows of the change", lambda: self.one.knows_all_of(self.two))
        self.stop()
        self.assertEqual(self.verdict(), self.fault("RecordDiffers", "text", self.one))


if __name__ == "__main__":
    main()
