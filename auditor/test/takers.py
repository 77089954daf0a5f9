#!/usr/bin/env python3
"""The audit of three real Syncthing devices on loopback, the third of which only sends: it takes nothing of what the others change. What the answer
says of who takes what is what Syncthing does.

    auditor/test/takers.py
"""

import os

from behind import NEW, OLD, Behind
from exporting import main
from syncthing import wait_until


class ADeviceThatOnlySends(Behind):
    """The first device touched a file, changed one, deleted one and added one. Of one more only the mode changed on the third device, and the first one
    changed that, too, earlier or later."""

    names = ("one", "two", "three")
    old = ("touched", "changed", "missing", "earlier", "later")

    @classmethod
    def setUpClass(cls):
        cls.three = None
        super().setUpClass()

    @classmethod
    def synchronise(cls):
        cls.now, cls.three = 1700000000, cls.devices[2]
        for name in cls.old:
            cls.put(cls.one, name, OLD, -1000)
        cls.scan_and_wait()

    @classmethod
    def change_one(cls):
        """What no scan has seen yet."""
        cls.put(cls.one, "touched", OLD, 0)
        for name, seconds in (("changed", 0), ("new", 0), ("earlier", -2000), ("later", 0)):
            cls.put(cls.one, name, NEW, seconds)
        (cls.one.files / "missing").unlink()

    @classmethod
    def change_two(cls):
        """What is so on the third device."""
        cls.three.configure(cls.devices, kind="sendonly")
        for name in ("earlier", "later"):
            (cls.three.files / name).chmod(0o600)

    def test_what_is_told_comes_so(self):
        self.run_both(self.have_taken)
        wait_until("the third device has heard of all", lambda: self.three.knows_all_of(self.one) and self.three.knows_all_of(self.two))
        self.assert_taken()
        self.assert_came(self.fates, *self.old, "new")
        status = self.three.api("GET", "db/status?folder=docs")
        copies = ("later", True) in self.texts_of(self.two)
        self.assertEqual(status["needTotalItems"], len(("touched", "changed", "missing", "new", "later", "earlier.sync-conflict")) + copies)
        self.three.api("POST", "db/override?folder=docs")
        wait_until("all is as on the third device", lambda: all(self.has_old(device) for device in (self.one, self.two)))
        self.stop()

    def have_taken(self):
        """Whether the second device has what the first one's scan found, and both have the third one's where that wins."""
        texts = self.texts_of(self.two)
        return (texts.get(("changed", False)) == texts.get(("new", False)) == texts.get(("later", False)) == NEW and ("missing", False) not in texts
                and (self.two.files / "touched").stat().st_mtime == self.now and ("earlier", True) in texts
                and self.texts_of(self.one).get(("earlier", False)) == OLD)

    def assert_taken(self):
        """The third device has what it had, and no conflict copy. The second one has a copy of the third one's if it took that first."""
        for device in (self.one, self.two):
            self.assert_texts(device, touched=[OLD], changed=[NEW], missing=[], new=[NEW], earlier=[OLD, NEW])
            self.assertEqual(self.texts_of(device)["later", False], NEW)
            self.assertIn(self.texts_of(device).get(("later", True)), (None, OLD))
        self.assert_texts(self.three, touched=[OLD], changed=[OLD], missing=[OLD], new=[], earlier=[OLD], later=[OLD])
        self.assertEqual((self.three.files / "touched").stat().st_mtime, self.now - 1000)

    def has_old(self, device):
        """Whether a device has what the third one has in place of what the first one changed."""
        texts = self.texts_of(device)
        return (all(texts.get((name, False)) == OLD for name in self.old) and ("new", False) not in texts
                and os.stat(device.files / "touched").st_mtime == self.now - 1000)


if __name__ == "__main__":
    main()
