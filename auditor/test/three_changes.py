#!/usr/bin/env python3
"""The audit of three real Syncthing devices on loopback, of which each changed one file; one of the changes is on top of another. Which one Syncthing keeps
depends on which devices connect first, and the answer says so.

    auditor/test/three_changes.py
"""

from behind import OLD, Behind
from exporting import main
from syncthing import wait_until


class ThreeChanges(Behind):
    """The first device changed the file, and the second one changed that again, to an earlier time. The third one's change is between the two. The first one
    connects with the third one first."""

    names = ("one", "two", "three")
    comes, copies = "two", {"three"}

    @classmethod
    def synchronise(cls):
        cls.now, cls.three = 1700000000, cls.devices[2]
        cls.put(cls.one, "text", OLD, -1000)
        cls.scan_and_wait()

    @classmethod
    def change_one(cls):
        cls.put(cls.one, "text", "one", 300)
        for device in (cls.one, cls.two):
            device.start()
        cls.one.scan()
        wait_until("the second device has the change", lambda: (cls.two.files / "text").read_text() == "one" and cls.one.is_in_step_with(cls.two))
        for device in (cls.one, cls.two):
            device.stop()

    @classmethod
    def change_two(cls):
        for device, text, seconds in ((cls.two, "two", 100), (cls.three, "three", 200)):
            cls.put(device, "text", text, seconds)
            cls.record(device)

    def pair(self):
        """The devices that connect first."""
        return self.one, self.three

    def test_what_is_told_comes_so(self):
        first, second = self.pair()
        for device in (first, second):
            device.start()
        wait_until("the two have the same", lambda: (first.files / "text").read_text() == (second.files / "text").read_text() and first.is_in_step_with(second))
        for device in set(self.devices) - {first, second}:
            device.start()
        wait_until("all have what comes", lambda: all(self.has_come(device) for device in self.devices))
        self.stop()
        for device in self.devices:
            self.assertTrue(self.has_come(device))
        self.assertGreater(len(self.fates["text"]["ends"]), 1)
        self.assert_came(self.fates, "text")

    def has_come(self, device):
        """Whether a device has what comes, and copies of what is lost."""
        copies = {path.read_text() for path in device.files.glob("text.sync-conflict-*")}
        return (device.files / "text").exists() and (device.files / "text").read_text() == self.comes and copies == self.copies


class ThreeChangesInAnotherOrder(ThreeChanges):
    """The second device connects with the third one first."""

    comes, copies = "one", {"two", "three"}

    def pair(self):
        return self.two, self.three


if __name__ == "__main__":
    main()
