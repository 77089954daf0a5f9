#!/usr/bin/env python3
"""The audit of real Syncthing devices one of which has rotten files, while one is behind with the same files: what Syncthing then does with
the rotten bytes, and that it doesn't where they were mended as the answer says.

    auditor/test/late_rot.py
"""

import json
import os
import subprocess

from exporting import main
from rot import Rotten, text_of
from syncthing import FOLDER, wait_until

KEPT, LOST = "kept", "lost"


class LateRot(Rotten):
    """Files that rot on the second device. One of them is mended as a person is told, and the other one isn't."""

    def rot(self, name):
        """Bytes of the same size and time come in place of a file's."""
        path = self.two.files / name
        times = path.stat()
        path.write_text("rotten " + name)
        os.utime(path, ns=(times.st_atime_ns, times.st_mtime_ns))

    def entry(self, name):
        """What a person reads of a name, and of what is to be done first."""
        status, text = self.answer()
        self.assertEqual(status, 1)
        entry, = [" ".join(entry.split()) for entry in text.split("\n\n") if entry.startswith(f"{name}  (in ")]
        return entry, text.partition("\nfirst, on ")[2]

    def mend(self, name, *options):
        """Copies a file from the first device to the second one."""
        subprocess.run(["cp", *options, self.one.files / name, self.two.files / name], check=True)

    def label(self, device):
        """What a person reads of a device without a configured name."""
        return device.id[:7]


class RotThatIsFetched(LateRot):
    """A third device lacks the files, and fetches them from the rotten one."""

    names = ("one", "two", "three")

    @classmethod
    def synchronise(cls):
        super().synchronise()
        cls.three = cls.devices[2]
        cls.three.stop()
        for name in (KEPT, LOST):
            (cls.one.files / name).write_text("binary " + name)
        cls.one.scan()
        wait_until("the second device has the files", lambda: text_of(cls.two.files / LOST) and cls.one.is_in_step_with(cls.two))

    def test_its_bytes_go_to_all_but_where_they_were_mended(self):
        for name in (KEPT, LOST):
            self.rot(name)
        fates = self.foretold()
        self.assertEqual([fates[name]["fate"] for name in (KEPT, LOST)], ["lost", "lost"])
        self.mend(KEPT, "--preserve=timestamps")
        for device in (self.two, self.three):
            device.start()
        wait_until("the third device has both", lambda: text_of(self.three.files / LOST) and text_of(self.three.files / KEPT))
        wait_until("the second device has recorded its rot", lambda: self.two.is_in_step_with(self.three) and self.three.is_in_step_with(self.two))
        self.stop()
        taken = self.foretold()
        self.assertEqual([taken[name]["fate"] for name in (KEPT, LOST)], ["right", "lost"], "the first device has the last good copy")
        entry, _ = self.entry(LOST)
        self.assertIn(f"{self.label(self.one)}: behind: hasn't taken what is newest: other bytes under the time of its own: rot that a scan took, or an edit that kept the time", entry)
        size = len("rotten " + LOST)
        self.assertIn(f"\nunder one time: {FOLDER} {LOST} on {self.number(self.one)}: {size} bytes recorded, {size} due\n",
                      self.check().stdout)
        self.start()
        wait_until("the rotten bytes are on all devices", lambda: all(
            text_of(device.files / LOST) == "rotten " + LOST for device in self.devices))
        self.assertEqual([text_of(device.files / KEPT) for device in self.devices], ["binary " + KEPT] * 3)
        self.stop()
        self.assert_came(fates, LOST)
        self.assert_came(taken, LOST)


class RotThatIsFetchedBesideAChange(LateRot):
    """A third device lacks the files, and fetches them from the rotten one. The first one changed them meanwhile, and no scan has seen that."""

    names = ("one", "two", "three")
    files = ("earlier", "later", "touched", "missing")

    @classmethod
    def synchronise(cls):
        super().synchronise()
        cls.three, cls.now = cls.devices[2], 1700000000
        cls.three.stop()
        for name in cls.files:
            cls.put(name, "binary ", 0)
        cls.one.scan()
        wait_until("the second device has the files", lambda: text_of(cls.two.files / "touched") and cls.one.is_in_step_with(cls.two))

    @classmethod
    def put(cls, name, text, seconds):
        """Writes a file on the first device, modified so many seconds from now."""
        (cls.one.files / name).write_text(text + name)
        os.utime(cls.one.files / name, (cls.now + seconds, cls.now + seconds))

    def change(self):
        """What no scan of the first device has seen, and what rots on the second one."""
        for name in self.files:
            self.rot(name)
        self.put("earlier", "changed ", -1000)
        self.put("later", "changed ", 1000)
        self.put("touched", "binary ", -1000)
        (self.one.files / "missing").unlink()

    def texts(self, device):
        """What stands in a device's files, and in their conflict copies."""
        return {name: (text_of(device.files / name), [text_of(path) for path in device.files.glob(f"{name}.sync-conflict-*")]) for name in self.files}

    def test_its_bytes_are_in_conflict_with_the_changes(self):
        self.change()
        fates = self.foretold()
        for device in (self.two, self.three):
            device.start()
        wait_until("the third device has the rotten bytes", lambda: all(text_of(self.three.files / name) == "rotten " + name for name in self.files))
        self.one.start()
        come = {"earlier": ("rotten earlier", ["changed earlier"]), "later": ("changed later", ["rotten later"]),
                "touched": ("rotten touched", ["binary touched"]), "missing": ("rotten missing", [])}
        wait_until("all devices have what was modified later", lambda: all(self.texts(device) == come for device in self.devices))
        self.stop()
        self.assert_came(fates, *self.files)


class RotThatAChangeReachesFirst(RotThatIsFetchedBesideAChange):
    """The same, and the changes come to all before anyone fetches the rotten files."""

    def test_its_bytes_are_in_conflict_with_the_changes(self):
        self.change()
        fates = self.foretold()
        for device in (self.one, self.three):
            device.start()
        come = {"earlier": ("changed earlier", []), "later": ("changed later", []), "touched": ("binary touched", []), "missing": (None, [])}
        wait_until("the third device has the changes", lambda: self.texts(self.three) == come and self.one.is_in_step_with(self.three))
        self.two.start()
        come["touched"] = ("rotten touched", [])
        wait_until("the second device has them, but for the bytes that it needs not", lambda: self.texts(self.two) == come)
        self.stop()
        self.assert_came(fates, *self.files)


class RotThatAnOldChangeMeets(LateRot):
    """Another mode shows the scan that the files changed, while the device is behind with them. Their change has an old time, so that the
    rotten bytes win."""

    def change(self):
        """The first device puts files of an old time into place, of which the second one hears later."""
        for name in (KEPT, LOST):
            path = self.one.files / name
            path.write_text("changed " + name)
            os.utime(path, (1600000000, 1600000000))
        self.one.start()
        self.one.scan()
        self.stop()

    @classmethod
    def synchronise(cls):
        for name in (KEPT, LOST):
            (cls.one.files / name).write_text("binary " + name)
        cls.scan_and_wait()

    def show(self, name):
        """Has the next scan see a file."""
        (self.two.files / name).chmod(0o600)

    def assert_told(self, name):
        """A person reads what to do before the scan."""
        entry, _ = self.entry(name)
        self.assertIn("if nothing is done: all devices then have what", entry)
        self.assertIn("is kept as a conflict copy", entry)

    def test_they_are_in_conflict_but_where_they_were_mended(self):
        for name in (KEPT, LOST):
            self.rot(name)
            self.show(name)
        self.change()
        for name in (KEPT, LOST):
            self.assert_told(name)
        self.mend(KEPT, "-a")
        self.start()
        wait_until("the rotten bytes are on the first device", lambda: text_of(self.one.files / LOST) == "rotten " + LOST)
        wait_until("both devices are in step", lambda: self.one.is_in_step_with(self.two) and self.two.is_in_step_with(self.one))
        for device in self.devices:
            self.assertEqual(text_of(device.files / KEPT), "changed " + KEPT)
            copies = [path.name for path in device.files.glob("*.sync-conflict-*")]
            self.assertEqual([name.partition(".")[0] for name in copies], [LOST])
        self.stop()


class RotThatIsOverridden(LateRot):
    """A device that only sends has other bytes than it recorded, and is behind with a change of them."""

    kinds = {"two": "sendonly"}

    @classmethod
    def synchronise(cls):
        (cls.two.files / LOST).write_text("binary " + LOST)
        cls.two.scan()
        wait_until("the first device has the file", lambda: text_of(cls.one.files / LOST) and cls.two.is_in_step_with(cls.one))

    def test_its_bytes_go_to_all(self):
        self.rot(LOST)
        (self.one.files / LOST).write_text("changed " + LOST)
        self.one.start()
        self.one.scan()
        self.one.stop()
        ran = self.on_homes("check", [device.home for device in self.devices], "--syncaudit", self.auditor, "--json")
        override, = [choice for choice in json.loads(ran.stdout)["folders"][0]["outlook"]["choices"] if choice["act"] == "override"]
        self.assertEqual([(loss["name"], [thing["devices"] for thing in loss["loses"]]) for loss in override["loses"]], [(LOST, [[self.one.id]])])
        self.start()
        wait_until("the second device has heard of the change", lambda: self.two.knows_all_of(self.one))
        self.two.api("POST", f"db/override?folder={FOLDER}")
        wait_until("the rotten bytes are on the first device", lambda: text_of(self.one.files / LOST) == "rotten " + LOST)
        self.stop()


class RotInAConflict(LateRot):
    """Both devices changed a file. The second one's change is the older one, and rots."""

    def test_the_conflict_copy_has_its_bytes(self):
        for device, text, seconds in ((self.one, "changed on one", 1700000000), (self.two, "binary text", 1600000000)):
            (device.files / "text").write_text(text)
            os.utime(device.files / "text", (seconds, seconds))
            device.start()
            device.scan()
            device.stop()
        self.rot("text")
        fates = self.foretold()
        self.start()
        wait_until("both devices have the conflict copy", self.have_copies)
        self.stop()
        self.assert_came(fates, "text")
        for device in self.devices:
            self.assertEqual(text_of(device.files / "text"), "changed on one")
            self.assertEqual([text_of(path) for path in device.files.glob("text.sync-conflict-*")], ["rotten text"])

    def have_copies(self):
        """Whether both devices hold a conflict copy, after a scan of each."""
        for device in self.devices:
            device.scan()
        return all(list(device.files.glob("text.sync-conflict-*")) for device in self.devices)


if __name__ == "__main__":
    main()
