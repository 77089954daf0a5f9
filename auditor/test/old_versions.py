#!/usr/bin/env python3
"""The audit of two real Syncthing devices on loopback, of which one keeps old versions of its files. What the answer says that goes there is there once
Syncthing has taken it away, and what it says that doesn't isn't.

    auditor/test/old_versions.py
"""

import json

from behind import NEW, OLD, Behind
from exporting import main
from syncthing import VERSIONS, wait_until


class OldVersions(Behind):
    """The second device was off while the first one emptied files, and changed others. It has rot, and a change of its own, of which it keeps no conflict copy."""

    texts = ("emptied", "both", "rotten")
    goes = {"emptied": "yes", "both": "no", "rotten": "yes"}

    @classmethod
    def synchronise(cls):
        cls.now = 1700000000
        for name in cls.texts:
            cls.put(cls.one, name, f"{OLD} {name}", -1000)
        cls.scan_and_wait()

    @classmethod
    def change_one(cls):
        cls.two.choose(maxConflicts="0")
        cls.two.keep_versions("trashcan")
        cls.put(cls.two, "both", "both", 200)
        cls.record(cls.two)
        cls.put(cls.one, "emptied", "", 0)
        cls.put(cls.one, "both", NEW, 500)
        cls.put(cls.one, "rotten", NEW, -500)
        cls.record(cls.one)

    @classmethod
    def change_two(cls):
        cls.put(cls.two, "rotten", f"{OLD} rotten".upper(), -1000)

    def kept_there(self, fates):
        """What is told of the second device's old versions, by the names that lose something there."""
        return {name: one["have"] for name, fate in fates.items() for thing in fate.get("loses", []) for one in thing["old_versions"] if one["device"] == self.two.id}

    def test_what_is_told_comes_so(self):
        """A part says how they are kept, and a person reads it of what is lost. Where a device keeps none, or has a command for it, that is told."""
        head = json.loads(self.shown(self.two)[0])["folders"][0]
        self.assertEqual(head["options"]["old_versions"], {"kind": "trashcan", "place": VERSIONS})
        self.assertEqual(self.kept_there(self.fates), self.goes)
        two, ran = self.two.id[:7], self.on_homes("check", [device.home for device in self.devices], "--syncaudit", self.auditor).stdout
        for name, words in (("emptied", f"the old versions of {two} then have it"), ("both", f"it isn't kept among the old versions of {two}")):
            self.assertRegex(ran, rf"(?m)^    {name}: .*; then no device's folder has it; {words}$")
        self.assertEqual(ran.count("\n    old versions are no backup: Syncthing deletes them by age and count\n"), 1, ran)
        for kind, have in (("", "none"), ("external", "external")):
            self.two.keep_versions(kind)
            self.assertEqual(self.kept_there(self.foretold()), dict.fromkeys(self.goes, have))
        self.two.keep_versions("trashcan")
        before = {name: (self.two.files / name).read_text() for name in self.goes}
        self.start()
        wait_until("both are in step", lambda: all(one.is_in_step_with(other) for one, other in (self.devices, self.devices[::-1])))
        self.stop()
        self.assertEqual({name: path.read_text() for name, path in self.two.old_versions().items()},
                         {name: before[name] for name, have in self.goes.items() if have == "yes"})


class OldVersionsOfARevert(Behind):
    """The second device only receives, changed a file and added one, and keeps old versions below another directory of the folder's."""

    kind, place = "receiveonly", "kept/old"

    @classmethod
    def synchronise(cls):
        cls.now = 1700000000
        cls.put(cls.one, "changed", OLD, -1000)
        cls.scan_and_wait()

    @classmethod
    def change_one(cls):
        (cls.two.files / ".stignore").write_text("kept\n")
        cls.two.keep_versions("simple", cls.place, keep="3")
        for name in ("changed", "added"):
            cls.put(cls.two, name, NEW, 0)
        cls.record(cls.two)

    @classmethod
    def change_two(cls):
        """Nothing."""

    def test_what_is_told_comes_so(self):
        ran = self.on_homes("check", [device.home for device in self.devices], "--syncaudit", self.auditor, "--json")
        revert, = [choice for choice in json.loads(ran.stdout)["folders"][0]["outlook"]["choices"] if choice["act"] == "revert"]
        told = {loss["name"]: [thing["old_versions"] for thing in loss["loses"]] for loss in revert["loses"]}
        self.assertEqual(told, dict.fromkeys(("added", "changed"), [[{"device": self.two.id, "have": "yes"}]]))
        self.start()
        wait_until("they are connected", lambda: self.two.knows_all_of(self.one))
        self.two.api("POST", "db/revert?folder=docs")
        wait_until("both are in step", lambda: self.two.is_in_step_with(self.one) and not (self.two.files / "added").exists())
        self.stop()
        self.assertEqual({name: path.read_text() for name, path in self.two.old_versions(self.place).items()}, dict.fromkeys(told, NEW))


if __name__ == "__main__":
    main()
