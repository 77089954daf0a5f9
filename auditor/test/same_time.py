#!/usr/bin/env python3
"""The audit of two real Syncthing devices on loopback that both changed the same names, to other contents of one time. Syncthing then goes by the
versions, and keeps what the answer says that it keeps.

    auditor/test/same_time.py
"""

import os

from behind import OLD, Behind
from exporting import main
from syncthing import wait_until, wait_until_in_step



class ChangesOfOneTime(Behind):
    """Both devices recorded a change, or a scan of each finds one, of the first device's file or of the second one's; of one more only the mode changed
    on the first device. Of a last one a copy of another time is the newest."""

    recorded = ("recorded", "recorded-of-two")
    found = ("found", "found-of-two", "added", "mode")
    links = ("link", "recorded-link")

    @classmethod
    def synchronise(cls):
        cls.now = 1700000000
        for name in ("recorded", "found", "mode", "later"):
            cls.put(cls.one, name, OLD, -1000)
        for name in cls.links:
            (cls.one.files / name).symlink_to("nothing")
        cls.scan_and_wait()
        for name in ("recorded-of-two", "found-of-two"):
            cls.put(cls.two, name, OLD, -1000)
        cls.two.scan()
        wait_until_in_step(*cls.devices)

    @classmethod
    def change_one(cls):
        cls.change(cls.one, "one")
        (cls.one.files / "mode").chmod(0o600)

    @classmethod
    def change_two(cls):
        cls.change(cls.two, "number two")
        cls.put(cls.two, "mode", "number two", -1000)

    @classmethod
    def change(cls, device, text):
        """What the device records, and then what no scan has seen yet."""
        for name in cls.recorded:
            cls.put(device, name, text, 0)
        cls.link(device, "recorded-link", text)
        cls.record(device)
        for name in ("found", "found-of-two", "added"):
            cls.put(device, name, text, 0)
        cls.put(device, "later", text, len(text))
        cls.link(device, "link", text)

    @classmethod
    def link(cls, device, name, target):
        (device.files / name).unlink()
        (device.files / name).symlink_to(target)

    def test_syncthing_keeps_whose_the_answer_says(self):
        self.run_both(lambda: all(self.have_all(device) for device in self.devices))
        wait_until_in_step(*self.devices)
        self.stop()
        self.assert_came(self.fates, *self.recorded, *self.found, *self.links, "later")
        for name in (*self.recorded, *self.found, *self.links):
            self.assertEqual(len(self.fates[name]["ends"]), 1, name)

    def have_all(self, device):
        """Whether a device has the conflict copies of all files, and a target that both have."""
        copies = {path.name.split(".sync-conflict-")[0] for path in device.files.glob("*.sync-conflict-*")}
        return copies == {*self.recorded, *self.found, "later"} and all(
            os.readlink(self.one.files / name) == os.readlink(self.two.files / name) for name in self.links)


if __name__ == "__main__":
    main()
