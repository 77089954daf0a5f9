#!/usr/bin/env python3
"""The audit of two real Syncthing devices on loopback, of which one is behind and its disk isn't as it recorded. What the answer says that
Syncthing does with that is what Syncthing does.

    auditor/test/behind.py
"""

import os
import time
import unicodedata

from exporting import Exporting, main
from syncthing import wait_until, wait_until_in_step

NEW, OLD = "new on one", "old"


class Behind(Exporting):
    """The second device was off while the first one changed files; what stands on its disk was changed, too."""

    kind = "sendreceive"
    texts = ("lost", "own", "touched", "back", "written", "dropped", "kept", "copied", "rotten")
    all_names = (*texts, "folder", "folder/lost", "empty", "directory", "seeded")

    @classmethod
    def synchronise(cls):
        """Old files on both devices, one of them deleted again."""
        cls.now = int(time.time())
        for name in cls.texts:
            cls.put(cls.one, name, OLD, -1000)
        (cls.one.files / "folder").mkdir()
        (cls.one.files / "empty").mkdir()
        cls.put(cls.one, "folder/lost", OLD, -1000)
        cls.scan_and_wait()
        (cls.one.files / "back").unlink()
        cls.scan_and_wait()

    @classmethod
    def put(cls, device, name, text, seconds):
        """Writes a file, modified so many seconds from now."""
        path = device.files / name
        path.write_text(text)
        os.utime(path, (cls.now + seconds, cls.now + seconds))

    @classmethod
    def setUpClass(cls):
        super().setUpClass()
        cls.two.configure(cls.devices, kind=cls.kind)
        cls.change_one()
        cls.change_two()
        cls.told, cls.fates = cls.entries(), cls.foretold()

    @classmethod
    def change_one(cls):
        """What the first device records while the second one is off."""
        for name in ("lost", "own", "touched", "back", "written", "folder/lost", "copied", "seeded", "rotten"):
            cls.put(cls.one, name, NEW, -500)
        (cls.one.files / "directory").mkdir()
        (cls.one.files / "empty").chmod(0o700)
        (cls.one.files / "dropped").unlink()
        cls.record(cls.one)

    @classmethod
    def change_two(cls):
        """What the second device records meanwhile, and what stands on its disk then."""
        if cls.kind == "sendreceive":
            cls.put(cls.two, "own", "own", -100)
            cls.record(cls.two)
        for name in ("lost", "own", "kept", "folder/lost"):
            (cls.two.files / name).unlink()
        (cls.two.files / "folder").rmdir()
        (cls.two.files / "empty").rmdir()
        for name in ("touched", "dropped"):
            os.utime(cls.two.files / name, (cls.now, cls.now))
        cls.put(cls.two, "back", "back", -600)
        cls.put(cls.two, "written", "written", -10)
        cls.put(cls.two, "rotten", OLD.upper(), -1000)
        cls.put(cls.two, "copied", NEW, -400)
        cls.put(cls.two, "seeded", NEW, -600)
        (cls.two.files / "directory").mkdir()

    @classmethod
    def record(cls, device):
        """Has a device scan while the other one is off."""
        device.start()
        device.scan()
        device.stop()

    @classmethod
    def entries(cls):
        """What a person reads, by the names."""
        ran = cls.on_homes("check", [device.home for device in cls.devices], "--syncaudit", cls.auditor)
        return {entry.split("  (in ")[0].strip("\n"): " ".join(entry.split()) for entry in ran.stdout.split("\n\n")}

    def run_both(self, are_through):
        """Has both devices run until something holds of them, and they have scanned again."""
        self.start()
        wait_until("they are through", are_through)
        for device in self.devices:
            device.scan()

    def texts_of(self, device):
        """What stands in a device's files, conflict copies by the names of their files."""
        return {(str(path.relative_to(device.files)).split(".sync-conflict-")[0], ".sync-conflict-" in path.name): path.read_text()
                for path in device.files.rglob("*") if path.is_file()}

    def assert_texts(self, device, **texts):
        """These names have these texts, with that of the conflict copy behind it; nothing stands at a name without one."""
        have = self.texts_of(device)
        for name, expected in texts.items():
            path = name.replace("_", "/")
            self.assertEqual([have[key] for key in ((path, False), (path, True)) if key in have], expected, name)


class BehindAndSends(Behind):
    """The second device sends and receives."""

    def test_what_is_told_comes_so(self):
        self.run_both(lambda: all((device.files / "touched").is_file() and (device.files / "touched").read_text() == OLD for device in self.devices))
        wait_until_in_step(*self.devices)
        self.stop()
        for device in self.devices:
            self.assert_texts(device, lost=[NEW], folder_lost=[NEW], own=[NEW], touched=[OLD, NEW], back=[NEW, "back"],
                              written=["written", NEW], dropped=[OLD], kept=[], copied=[NEW], seeded=[NEW], rotten=[NEW])
            self.assertTrue((device.files / "empty").is_dir())
        self.assert_came(self.fates, *self.all_names)
        self.assertEqual(self.verdict(), "settled")


class BehindAndReceives(Behind):
    """The second device only receives."""

    kind = "receiveonly"

    def test_what_is_told_comes_so(self):
        self.run_both(lambda: self.texts_of(self.two).get(("written", False)) == NEW)
        wait_until("all is taken", lambda: self.two.api("GET", "db/status?folder=docs")["needTotalItems"] == 0)
        self.stop()
        self.assert_texts(self.one, lost=[NEW], folder_lost=[NEW], own=[NEW], touched=[NEW], back=[NEW], written=[NEW], dropped=[], kept=[OLD])
        self.assert_texts(self.two, lost=[NEW], folder_lost=[NEW], own=[NEW], touched=[NEW, OLD], back=[NEW, "back"],
                          written=[NEW, "written"], dropped=[OLD], kept=[], copied=[NEW], seeded=[NEW])
        self.assert_came(self.fates, *self.all_names)


class BehindAndOnlySends(Behind):
    """The second device only sends."""

    kind = "sendonly"

    def test_what_is_told_comes_so(self):
        """Its changes that are to go before others do so on these; what is missing there stays elsewhere until it overrides."""
        self.run_both(lambda: self.texts_of(self.one).get(("written", False)) == "written")
        self.assert_texts(self.one, lost=[NEW], folder_lost=[NEW], own=[NEW], touched=[OLD, NEW], back=[NEW], written=["written", NEW],
                          dropped=[OLD], kept=[], copied=[NEW], seeded=[NEW])
        wait_until("all names come to an end that was told", lambda: not self.untrue(self.fates, *self.all_names))
        self.two.api("POST", "db/override?folder=docs")
        wait_until("what is missing there is gone", lambda: not any((self.one.files / name).exists() for name in ("lost", "folder/lost", "own")))
        self.stop()


class BehindALargeRename(Exporting):
    """The first device renamed a directory while the second one was off, and two files below it have the same bytes."""

    files = 450

    def test_what_is_told_comes_so(self):
        names = [f"{number:03}" for number in range(self.files)]
        (self.one.files / "was").mkdir()
        for name in names:
            (self.one.files / "was" / name).write_text(f"text {max(int(name), 1)}")
        self.start()
        self.scan_and_wait()
        self.two.stop()
        (self.one.files / "was").rename(self.one.files / "is")
        self.one.scan()
        self.one.stop()
        fates = self.foretold()
        self.assertEqual({fates[name]["fate"] for name in ("was", *(f"was/{name}" for name in names))}, {"deleted"})
        self.assertEqual({fates[name]["fate"] for name in ("is", *(f"is/{name}" for name in names))}, {"right"})
        self.start()
        wait_until("the old directory is gone", lambda: not (self.two.files / "was").exists())
        wait_until_in_step(self.one, self.two)
        self.stop()
        self.assert_came(fates, "was", "is", *(f"{above}/{name}" for above in ("was", "is") for name in names))
        self.assertEqual(self.verdict(), "settled")


class BehindARenameIntoDirectories(Exporting):
    """The first device moved the files of a directory into five new ones, and put copies of one file into each, while the second one was off."""

    files, copies, directories = 500, 450, 5

    def test_what_is_told_comes_so(self):
        (self.one.files / "was").mkdir()
        for number in range(self.files):
            (self.one.files / "was" / f"{number:03}").write_text(f"text {number}")
        self.start()
        self.scan_and_wait()
        self.two.stop()
        new = [f"is {number % self.directories}/{number:03}" for number in range(self.files)]
        copies = [f"is {number % self.directories}/copy {number:03}" for number in range(self.copies)]
        for number in range(self.directories):
            (self.one.files / f"is {number}").mkdir()
        for number, name in enumerate(new):
            (self.one.files / "was" / f"{number:03}").rename(self.one.files / name)
        for name in copies:
            (self.one.files / name).write_text("one text")
        (self.one.files / "was").rmdir()
        self.one.scan()
        self.one.stop()
        fates = self.foretold()
        old = ["was", *(f"was/{number:03}" for number in range(self.files))]
        self.assertEqual({fates[name]["fate"] for name in old}, {"deleted"})
        self.assertEqual({fates[name]["fate"] for name in (*new, *copies)}, {"right"})
        self.start()
        wait_until("the old directory is gone", lambda: not (self.two.files / "was").exists())
        wait_until_in_step(self.one, self.two)
        self.stop()
        self.assert_came(fates, *old, *new, *copies)
        self.assertEqual(self.verdict(), "settled")


class BehindWithoutCopies(Exporting):
    """A folder whose 'Max Conflicts' is 0."""

    def test_no_copy_is_kept(self):
        """Old bytes that were touched go over newer ones, as the answer says, unless they are deleted first."""
        for name in ("text", "empty"):
            (self.one.files / name).write_text(NEW)
            os.utime(self.one.files / name, (time.time() - 500,) * 2)
        self.one.start()
        self.one.scan()
        self.one.stop()
        for device in self.devices:
            device.choose(maxConflicts="0")
        for name in ("text", "empty"):
            os.utime(self.two.files / name, (time.time(),) * 2)
        fates = self.foretold()
        self.assertEqual([fates[name]["fate"] for name in ("text", "empty")], ["lost", "lost"])
        (self.two.files / "empty").unlink()
        self.start()
        wait_until("the touched one is on both", lambda: (self.one.files / "text").read_text() == "hello")
        wait_until_in_step(self.one, self.two)
        self.stop()
        self.assert_came(fates, "text")
        for device in self.devices:
            self.assertEqual([device.files.joinpath(name).read_text() for name in ("text", "empty")], ["hello", NEW])
            self.assertEqual(list(device.files.glob("*conflict*")), [])


class AskedForRot(Exporting):
    """Other bytes on one device, of a file that a third one lacks."""

    names = ("one", "two", "three")

    def test_other_bytes_go_to_all(self):
        """A device that is asked for the file hashes it anew, as the answer says. No scan of it sees them before."""
        three = self.devices[2]
        self.one.start()
        self.two.start()
        (self.one.files / "text").write_text("the right bytes")
        self.one.scan()
        wait_until_in_step(self.one, self.two)
        version = self.two.api("GET", "db/file?folder=docs&file=text")["local"]["version"]
        self.stop()
        path, times = self.two.files / "text", (self.two.files / "text").stat()
        path.write_text("the wrong bytes")
        os.utime(path, ns=(times.st_atime_ns, times.st_mtime_ns))
        fates = self.foretold()
        self.assertEqual(fates["text"]["fate"], "lost")
        self.two.start()
        self.two.scan()
        self.assertEqual(self.two.api("GET", "db/file?folder=docs&file=text")["local"]["version"], version, "the scan saw the other bytes")
        three.start()
        wait_until("the third device has it", lambda: (three.files / "text").read_text() == "the wrong bytes")
        self.one.start()
        wait_until("the first device has it, too", lambda: (self.one.files / "text").read_text() == "the wrong bytes")
        wait_until_in_step(*self.devices)
        self.stop()
        self.assert_came(fates, "text")
        self.assertEqual([list(device.files.glob("*conflict*")) for device in self.devices], [[], [], []])


class NamesThatNoScanTakes(Exporting):
    """A name that isn't in Unicode's form NFC, beside the one that is."""

    def test_they_are_to_be_renamed(self):
        """No scan takes it, as the answer says; once it is renamed, a scan does."""
        composed = unicodedata.normalize("NFC", "müll")
        odd = unicodedata.normalize("NFD", composed)
        for name, text in ((composed, "right"), (odd, "odd")):
            (self.one.files / name).write_text(text)
        self.start()
        self.scan_and_wait_for(composed)
        self.stop()
        self.assertTrue((self.one.files / odd).exists())
        ran = self.on_homes("check", [device.home for device in self.devices], "--syncaudit", self.auditor)
        self.assertEqual(ran.returncode, 1, ran.stderr)
        self.assertEqual(self.foretold()[odd]["fate"], "not-known")
        self.assertIn(f"rename it on {self.one.id[:7]}: its name isn't in Unicode's form NFC, in which Syncthing has names", " ".join(ran.stdout.split()))
        (self.one.files / odd).rename(self.one.files / "another")
        self.start()
        self.scan_and_wait()
        self.stop()
        self.assertEqual(self.verdict(), "settled")

    def scan_and_wait_for(self, name):
        """Scans the first device's folder, and waits until the second one has a name."""
        self.one.scan()
        wait_until("the second device has the name", (self.two.files / name).exists)


if __name__ == "__main__":
    main()
