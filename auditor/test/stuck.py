#!/usr/bin/env python3
"""The audit of two real Syncthing devices on loopback, of which one put a file or a symlink in place of a directory, below which the other one changed
something; be it one that only receives. What the answer says that Syncthing does with that is what Syncthing does.

    auditor/test/stuck.py
"""

import json
import shutil

from behind import NEW, OLD, Behind
from exporting import Exporting, main
from rot import text_of
from syncthing import wait_until, wait_until_in_step


class BelowWhatIsReplaced(Behind):
    """The first device changed what is below the directories: it recorded the one, and no scan has seen the others. The second one replaced them, and
    recorded that. One more directory is missing there, and what is below it was changed."""

    directories = ("recorded", "found", "linked", "missing")

    @classmethod
    def synchronise(cls):
        cls.now = 1700000000
        for name in cls.directories:
            (cls.one.files / name).mkdir()
            cls.put(cls.one, f"{name}/in", OLD, -1000)
        cls.scan_and_wait()

    @classmethod
    def change_one(cls):
        for name in ("recorded", "missing"):
            cls.put(cls.one, f"{name}/in", NEW, 0)
        cls.record(cls.one)
        cls.put(cls.one, "found/in", NEW, 0)
        cls.put(cls.one, "linked/new", NEW, 0)

    @classmethod
    def change_two(cls):
        for name in cls.directories:
            shutil.rmtree(cls.two.files / name)
        for name in ("recorded", "found"):
            cls.put(cls.two, name, "a file", 500)
        (cls.two.files / "linked").symlink_to("recorded")
        (cls.two.files / "missing").mkdir()
        cls.put(cls.two, "missing/in", OLD, -1000)
        cls.record(cls.two)
        shutil.rmtree(cls.two.files / "missing")

    def are_stuck(self):
        """Whether all names failed that do, on both devices. It keeps why: Syncthing forgets that at its next pull."""
        self.why = [self.failed(device) for device in self.devices]
        return {"recorded", "found", "linked"} <= self.why[0].keys() and {"recorded/in", "found/in", "linked/new"} <= self.why[1].keys()

    def failed(self, device):
        """Why names failed on a device."""
        return {one["path"]: one["error"] for one in self.api_errors(device)}

    def api_errors(self, device):
        return device.api("GET", "folder/errors?folder=docs")["errors"] or []

    def test_what_is_told_comes_so(self):
        self.put_what_is_deleted()
        self.start()
        wait_until("both are stuck", self.are_stuck)
        self.assertIn("not empty", self.why[0]["recorded"])
        self.assertIn("not a directory", self.why[1]["recorded/in"])
        self.assertEqual([path.name for path in (self.one.files / "recorded").iterdir()], ["in"])
        for device in self.devices:
            wait_until("what is kept is there, and its directory", lambda: text_of(device.files / "missing/in") == NEW)
        names = [f"{name}{below}" for name in self.directories for below in ("", "/in")]
        wait_until("all names come to an end that was told", lambda: not self.untrue(self.fates, *names, "linked/new"))
        self.mend()
        wait_until("all is as it was decided", lambda: all(self.is_mended(device) for device in self.devices))
        self.stop()

    def put_what_is_deleted(self):
        """Puts into a directory what Syncthing deletes there, though it doesn't replace the directory."""
        (self.one.files / ".stignore").write_text("(?d)*.cache\n")
        for name in ("a.cache", ".syncthing.b.tmp"):
            (self.one.files / "recorded" / name).write_text("")

    def is_mended(self, device):
        """Whether a device has what was to stay, and nothing that it still lacks."""
        return (text_of(device.files / "recorded/in") == NEW and text_of(device.files / "found") == "a file"
                and (device.files / "linked").is_symlink() and device.shows_up_to_date())

    def mend(self):
        """The one directory is to stay, and the others aren't."""
        shutil.move(self.two.files / "recorded", self.room / "away")
        self.two.scan()
        for name in ("found", "linked"):
            shutil.move(self.one.files / name, self.room / f"{name} away")
        self.one.scan()


class BelowWhatAReceiverReplaced(Behind):
    """The second device only receives, and has files and a symlink in place of directories, below which the first one changed something. It recorded two of
    them; of these the first one changed one directory's mode since."""

    directories = ("recorded", "passed", "found", "linked")

    @classmethod
    def synchronise(cls):
        cls.now = 1700000000
        for name in cls.directories:
            (cls.one.files / name).mkdir()
            cls.put(cls.one, f"{name}/in", OLD, -1000)
        cls.scan_and_wait()

    @classmethod
    def change_one(cls):
        """What the second device recorded, and what the first one changed since."""
        cls.two.configure(cls.devices, kind="receiveonly")
        for name in ("recorded", "passed"):
            cls.replace(name)
        cls.record(cls.two)
        (cls.one.files / "passed").chmod(0o700)
        for name in ("passed", "found"):
            cls.put(cls.one, f"{name}/in", NEW, 0)
        cls.record(cls.one)
        cls.put(cls.one, "recorded/in", NEW, 0)
        cls.put(cls.one, "linked/new", NEW, 0)

    @classmethod
    def change_two(cls):
        cls.replace("found")
        shutil.rmtree(cls.two.files / "linked")
        (cls.two.files / "linked").symlink_to("recorded")

    @classmethod
    def replace(cls, name):
        """Has the second device have a file in place of a directory."""
        shutil.rmtree(cls.two.files / name)
        cls.put(cls.two, name, "a file", 500)

    def test_what_is_told_comes_so(self):
        revert, = [choice for choice in self.choices() if choice["act"] == "revert"]
        self.assertEqual((revert["device"], revert["not_known"]), (self.two.id, 0))
        self.start()
        wait_until("the second device is stuck", lambda: {"recorded/in", "found/in", "linked/new"} <= self.failed())
        wait_until("it has what it takes by itself", lambda: (self.two.files / "passed/in").exists() and text_of(self.two.files / "passed/in") == NEW)
        wait_until("all names come to an end that was told", lambda: not self.untrue(self.fates, *(f"{name}/in" for name in self.directories), "linked/new"))
        self.two.api("POST", "db/revert?folder=docs")
        wait_until("it has all", lambda: all((self.two.files / name).is_dir() for name in self.directories) and self.one.is_in_step_with(self.two))
        self.stop()
        for name in ("recorded/in", "passed/in", "found/in", "linked/new"):
            self.assertEqual(text_of(self.two.files / name), NEW)

    def choices(self):
        """What may be chosen for the whole folder."""
        ran = self.on_homes("check", [device.home for device in self.devices], "--syncaudit", self.auditor, "--json")
        return json.loads(ran.stdout)["folders"][0]["outlook"]["choices"]

    def failed(self):
        return {one["path"] for one in self.two.api("GET", "folder/errors?folder=docs")["errors"] or []}


class ADirectoryInPlaceOfADeletedFile(Behind):
    """The second device put files in place of two directories, and recorded that. It deleted the one; the other one is missing there. The first device
    still has the directories."""

    @classmethod
    def synchronise(cls):
        cls.now = 1700000000
        for name in ("deleted", "missing"):
            (cls.one.files / name).mkdir()
        cls.scan_and_wait()

    @classmethod
    def change_one(cls):
        """Nothing."""

    @classmethod
    def change_two(cls):
        for name in ("deleted", "missing"):
            (cls.two.files / name).rmdir()
            cls.put(cls.two, name, NEW, 0)
        cls.record(cls.two)
        (cls.two.files / "deleted").unlink()
        cls.record(cls.two)
        (cls.two.files / "missing").unlink()

    def test_what_is_told_comes_so(self):
        self.start()
        wait_until("both fail", lambda: "".join(one["error"] for one in self.failed()).count("encountered directory") == 2)
        self.assert_came(self.fates, "deleted", "missing")
        for name in ("deleted", "missing"):
            (self.one.files / name).rmdir()
        self.one.scan()
        wait_until("nothing fails any more", lambda: not self.failed())
        wait_until_in_step(*self.devices)
        self.stop()
        self.assertEqual([path.name for path in self.one.files.iterdir()], [".stfolder"])

    def failed(self):
        return self.one.api("GET", "folder/errors?folder=docs")["errors"] or []


class HoldsWhatIsIgnored(Exporting):
    """One device deletes directories in which the other one has what its .stignore keeps out: with (?d), so that it goes with the directory, or as Syncthing
    tries to delete that; and without."""

    ignored = {"goes": {"names": 3, "bytes": 9}, "stays": {"names": 1, "bytes": 4}}

    @classmethod
    def synchronise(cls):
        for name in ("goes", "stays"):
            (cls.one.files / name).mkdir()
            (cls.one.files / name / "in").write_text(OLD)
        cls.scan_and_wait()

    @classmethod
    def setUpClass(cls):
        super().setUpClass()
        (cls.two.files / ".stignore").write_text("(?d)*.cache\n*.keep\n")
        (cls.two.files / "goes/b.cache").mkdir()
        for name, text in (("goes/a.cache", "some"), ("goes/b.cache/below", "other"), ("stays/a.keep", "to stay"), ("stays/a.cache", "some")):
            (cls.two.files / name).write_text(text)
        for name in ("goes", "stays"):
            shutil.rmtree(cls.one.files / name)
        cls.one.start()
        cls.one.scan()
        cls.one.stop()

    def test_what_is_told_comes_so(self):
        fates = self.foretold()
        self.assertEqual([kept["why"] for kept in fates["stays"]["kept"]], ["has-ignored"])
        lost = {name: [(thing["devices"], thing["ignored"]) for thing in fates[name]["loses"]] for name in self.ignored}
        self.assertEqual(lost, {name: [([self.two.id], count)] for name, count in self.ignored.items()})
        ran = self.on_homes("check", [device.home for device in self.devices], "--syncaudit", self.auditor)
        two = self.two.id[:7]
        self.assertIn(f"\n    goes: 3 names (9 bytes) that .stignore ignores with (?d) on {two}; then no device's folder has it; {two} keeps no old versions\n", ran.stdout)
        self.assertRegex(ran.stdout, rf"(?m)^  for goes stays:\n    1\. on {two}: copy each elsewhere, if it is to stay")
        self.assertIn(f"no device has it then; with it 3 names (9 bytes) that .stignore ignores with (?d) on {two} go.", " ".join(ran.stdout.split()))
        self.start()
        wait_until("the one is deleted, and the other one fails", lambda: not (self.two.files / "goes").exists() and self.fails("stays"))
        self.stop()
        self.assertEqual([path.name for path in (self.two.files / "stays").iterdir()], ["a.keep"])
        self.assert_came(fates, "goes", "goes/in", "stays", "stays/in")

    def fails(self, name):
        """Whether the second device tells that it fails to take a name."""
        return name in [one["path"] for one in self.two.api("GET", "folder/errors?folder=docs")["errors"] or []]


if __name__ == "__main__":
    main()
