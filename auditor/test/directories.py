#!/usr/bin/env python3
"""The audit of two real Syncthing devices on loopback, of which one deleted directories. The other one only receives, and has other things in place of them,
or files below them. What the answer says that Syncthing does with those is what Syncthing does.

    auditor/test/directories.py
"""

from behind import NEW, OLD, Behind
from exporting import main
from rot import text_of
from syncthing import wait_until


class DirectoriesOfOneThatOnlyReceives(Behind):
    """The second device recorded a file in place of two directories, and no scan has seen one more. It has a file below another one, and other modes of a
    directory and of a file. The first device recorded one deletion; no scan of it has seen the others."""

    directories = ("recorded", "found", "gone", "below", "mode")

    @classmethod
    def synchronise(cls):
        cls.now = 1700000000
        for name in cls.directories:
            (cls.one.files / name).mkdir()
        cls.put(cls.one, "file", OLD, 0)
        cls.scan_and_wait()

    @classmethod
    def change_one(cls):
        cls.two.configure(cls.devices, kind="receiveonly")
        for name in ("recorded", "gone"):
            cls.replace(name)
        cls.put(cls.two, "below/in", NEW, 0)
        cls.record(cls.two)
        (cls.one.files / "gone").rmdir()
        cls.record(cls.one)
        for name in ("recorded", "found", "below", "mode"):
            (cls.one.files / name).rmdir()
        (cls.one.files / "file").unlink()

    @classmethod
    def change_two(cls):
        cls.replace("found")
        for name, mode in (("mode", 0o700), ("file", 0o600)):
            (cls.two.files / name).chmod(mode)

    @classmethod
    def replace(cls, name):
        """Has the second device have a file in place of a directory."""
        (cls.two.files / name).rmdir()
        cls.put(cls.two, name, NEW, 0)

    def test_what_is_told_comes_so(self):
        self.start()
        wait_until("the directories are gone, with what stood in their places", lambda: self.stand() == {"below", "file"})
        wait_until("the other one can't be deleted", lambda: "not empty" in str(self.two.api("GET", "folder/errors?folder=docs")))
        wait_until("it has heard of all", lambda: self.two.knows_all_of(self.one))
        self.stop()
        self.assertEqual(self.stand(), {"below", "file"})
        self.assert_came(self.fates, *self.directories, "below/in", "file")
        self.assertEqual((text_of(self.two.files / "below/in"), text_of(self.two.files / "file")), (NEW, OLD))

    def stand(self):
        """The names on the second device, conflict copies among them."""
        return {path.name for path in self.two.files.iterdir() if not path.name.startswith(".")}


if __name__ == "__main__":
    main()
