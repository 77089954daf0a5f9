#!/usr/bin/env python3
"""The answer on real Syncthing devices, followed from the top: no step loses good bytes if the next one is never made.

    auditor/test/safe_steps.py
"""

import os
import subprocess

from exporting import main
from late_rot import KEPT, LOST, LateRot
from rot import text_of
from syncthing import wait_until


class Followed(LateRot):
    """Three devices, of which the third one is off at first."""

    names = ("one", "two", "three")
    files = ()

    @classmethod
    def synchronise(cls):
        """Files that the first two devices have and the third one lacks."""
        super().synchronise()
        cls.three = cls.devices[2]
        cls.three.stop()
        for name in cls.files:
            (cls.one.files / name).write_text("binary " + name)
        cls.one.scan()
        wait_until("the second device has the files", lambda: cls.one.is_in_step_with(cls.two) and cls.two.is_in_step_with(cls.one))

    def read(self):
        """What a person reads: what comes first, and the entries by their names, in their order."""
        status, text = self.answer()
        self.assertEqual(status, 1)
        _, *parts = text.split("\n\n")
        first = [" ".join(part.split()) for part in parts if part.startswith("first, on ")]
        self.assertEqual(first, [" ".join(part.split()) for part in parts[:len(first)]], "it doesn't stand above the entries")
        return "".join(first), {part.split("  (in ")[0]: " ".join(part.split()) for part in parts if "  (in " in part}


class FromWhomIsTaken(Followed):
    """The third device lacks two files. On the second one, which has both, one of them rots."""

    files = ("alpha", "zeta")

    def test_the_rotten_device_is_not_named(self):
        """Who does what the entry of the sound file says has the right bytes of both on all devices."""
        self.rot("zeta")
        first, told = self.read()
        one, two, three = map(self.label, self.devices)
        self.assertTrue(first.startswith(f"first, on {two}: do what the steps and the entries below say to do before Syncthing starts or scans there."), first)
        self.assertEqual(list(told), ["zeta", "alpha"], "what may lose bytes doesn't come first")
        self.assertIn("the steps for it above", told["zeta"])
        self.assertIn("nothing but the start with which the steps above end", told["alpha"])
        for device in (self.three, self.one):
            device.start()
        wait_until("the third device has both", lambda: all(text_of(self.three.files / name) == "binary " + name for name in self.files))
        self.mend("zeta", "--preserve=timestamps")
        self.two.start()
        wait_until("the second device is in step", lambda: self.two.is_in_step_with(self.three))
        self.stop()
        for device in self.devices:
            self.assertEqual([text_of(device.files / name) for name in self.files], ["binary alpha", "binary zeta"])
        self.assertEqual(self.verdict(), "settled")


class Emptied(LateRot):
    """Files that were emptied, cut short or filled with zeros on the second device, as after a crash. All of them but one are mended as a person is told."""

    emptied = [f"emptied{place}" for place in range(6)]
    names_of_files = [*emptied, "cut", "zeroed", "lost"]

    @classmethod
    def synchronise(cls):
        for name in cls.names_of_files:
            (cls.one.files / name).write_text("binary " + name)
        cls.scan_and_wait()

    def harm(self, name, text, seconds=0):
        """This text stands in a file, whose time is as much later."""
        path = self.two.files / name
        times = path.stat()
        path.write_text(text)
        os.utime(path, ns=(times.st_atime_ns, times.st_mtime_ns + seconds * 10**9))

    def test_what_is_copied_back_stays(self):
        for name in self.emptied:
            self.harm(name, "")
        self.harm("cut", "bin")
        self.harm("zeroed", "\0" * len("binary zeroed"), 100)
        one, two = self.label(self.one), self.label(self.two)
        text = " ".join(self.answer()[1].split())
        self.assertIn(f"first, on {two}: 8 files look damaged, not edited. Do what is said of that below before Syncthing starts or scans there", text)
        self.assertIn(f"6 names in docs: 90 bytes {two}: looks damaged: 90 bytes recorded, 0 bytes on the disk: EMPTY the first: emptied0", text)
        self.assertIn(f"{two}: looks damaged: 10 bytes recorded, 3 bytes on the disk: cut short under the recorded time (modified", text)
        self.assertIn(f"{two}: looks damaged: all of it is ZEROS (modified", text)
        self.assertEqual(text.count("take the steps for it above, under 'to do in'.") + text.count("take the steps for them above, under 'to do in'."), 3)
        for name in (*self.emptied, "cut", "zeroed"):
            self.mend(name, "--preserve=timestamps")
        self.assertEqual(self.verdict(), "settled")
        self.harm("lost", "")
        self.start()
        self.two.scan()
        wait_until("the first device has lost what wasn't mended", lambda: text_of(self.one.files / "lost") == "")
        self.stop()
        for device in self.devices:
            self.assertEqual([text_of(device.files / name) for name in self.names_of_files], [*("binary " + name for name in self.names_of_files[:-1]), ""])


class MissingAndDeleted(LateRot):
    """The first device deleted files. On the second one, which was off, they are missing."""

    def test_there_is_nothing_to_copy(self):
        (self.one.files / "text").unlink()
        (self.one.files / "folder" / "large").unlink()
        (self.one.files / "folder").rmdir()
        self.one.start()
        self.one.scan()
        self.one.stop()
        (self.two.files / "text").unlink()
        (self.two.files / "folder" / "large").unlink()
        (self.two.files / "folder").rmdir()
        text = " ".join(self.answer()[1].split())
        self.assertEqual(text.count("if nothing is done: no device has it then."), 3)
        for word in ("mounted", "cp -a", "first, on", "before Syncthing"):
            self.assertNotIn(word, text)
        self.start()
        self.two.scan()
        wait_until("both devices are in step", lambda: self.one.is_in_step_with(self.two) and self.two.is_in_step_with(self.one))
        self.stop()
        self.assertEqual(self.verdict(), "settled")


class ModesBesideAStart(LateRot):
    """On the second device, which is off, files have another mode than recorded. It is behind with another file, whose entry says to start it there."""

    @classmethod
    def synchronise(cls):
        for name in (KEPT, LOST):
            (cls.one.files / name).write_text("binary " + name)
            (cls.one.files / name).chmod(0o644)
        (cls.one.files / "text").write_text("old")
        cls.scan_and_wait()

    def test_what_comes_before_the_start_is_said_first(self):
        """Who gives one of them its mode before the start, as the answer says, has it on both devices. The other one's mode goes to all."""
        for name in (KEPT, LOST):
            (self.two.files / name).chmod(0o600)
        (self.one.files / "text").write_text("newer")
        self.one.start()
        self.one.scan()
        self.one.stop()
        one, two = self.label(self.one), self.label(self.two)
        parts = [" ".join(part.split()) for part in self.answer()[1].split("\n\n")]
        self.assertEqual(parts[1], f"first, on {two}: do what the steps and the entries below say to do before Syncthing starts or scans there. As it starts, it scans all folders")
        self.assertIn("to do: nothing: let Syncthing run on all of these devices until it is idle", next(part for part in parts if part.startswith("text (in ")))
        for name in (KEPT, LOST):
            self.assertIn(f"to do: 'chmod' it to the mode that is right on {', '.join(sorted((one, two)))}, before Syncthing scans there",
                          next(part for part in parts if part.startswith(f"{name} (in ")))
        (self.two.files / KEPT).chmod(0o644)
        self.start()
        self.two.scan()
        wait_until("the second device has the change, and the first one a mode", lambda: text_of(self.two.files / "text") == "newer" and self.modes(LOST) == [0o600, 0o600])
        wait_until("both devices are in step", lambda: self.one.is_in_step_with(self.two) and self.two.is_in_step_with(self.one))
        self.stop()
        self.assertEqual([self.modes(name) for name in (KEPT, LOST)], [[0o644, 0o644], [0o600, 0o600]])

    def modes(self, name):
        """The modes of a file on all devices."""
        return [(device.files / name).stat().st_mode & 0o777 for device in self.devices]


class RotThatIsRenamed(LateRot):
    """Files rot on the second device, which is off. The first one renames them."""

    @classmethod
    def synchronise(cls):
        for name in (KEPT, LOST):
            (cls.one.files / name).write_text("binary " + name)
        cls.scan_and_wait()

    def test_its_bytes_are_moved_but_where_the_steps_were_taken(self):
        """The rotten bytes are saved, and the new name is copied to where the old one is rotten."""
        for name in (KEPT, LOST):
            self.rot(name)
            (self.one.files / name).rename(self.one.files / ("new-" + name))
        self.one.start()
        self.one.scan()
        self.one.stop()
        one, two = self.label(self.one), self.label(self.two)
        text = self.answer()[1]
        self.assertIn(f"  for {KEPT} {LOST}:\n    1. on {two}: copy each elsewhere, if it is to stay: the start may take it away\n"
                      f"  for new-{KEPT} new-{LOST}:\n    2. on {two}: copy each from {one}, as it is there (cp -a, or rsync -aI, as the user who runs Syncthing there)\n"
                      f"    then all devices have what {one} has now\n", text)
        for name in (KEPT, LOST):
            self.assertIn("if nothing is done: no device has it then", self.entry(name)[0])
        fates = self.foretold()
        self.assertEqual([fates["new-" + name]["fate"] for name in (KEPT, LOST)], ["stays", "stays"])
        self.mend("new-" + KEPT, "-a")
        self.start()
        wait_until("the second device has both new names", lambda: all(text_of(self.two.files / ("new-" + name)) for name in (KEPT, LOST)))
        wait_until("the old names are gone there", lambda: not any((self.two.files / name).exists() for name in (KEPT, LOST)))
        wait_until("both devices are in step", lambda: self.one.is_in_step_with(self.two) and self.two.is_in_step_with(self.one))
        self.stop()
        self.assertEqual([text_of(self.two.files / ("new-" + name)) for name in (KEPT, LOST)], ["binary " + KEPT, "rotten " + LOST])
        self.assertEqual([text_of(self.one.files / ("new-" + name)) for name in (KEPT, LOST)], ["binary " + KEPT, "binary " + LOST])
        self.assertEqual(self.verdict(), self.fault("StoreDiffers", "new-" + LOST, self.two))


class RotThatAnOldDeviceFetches(LateRot):
    """Files rot on the second device, and the first one changes them. A third device was off, and has an older change of its own."""

    names = ("one", "two", "three")

    @classmethod
    def put(cls, device, words, seconds):
        """Writes the files on a device, modified so many seconds from a moment."""
        for name in (KEPT, LOST):
            (device.files / name).write_text(words + name)
            os.utime(device.files / name, (1700000000 + seconds,) * 2)

    @classmethod
    def record(cls, device, words, seconds):
        """Has a device record a change while the others are off."""
        cls.put(device, words, seconds)
        device.start()
        device.scan()
        device.stop()

    @classmethod
    def synchronise(cls):
        cls.three = cls.devices[2]
        cls.put(cls.one, "oldest ", -3000)
        cls.scan_and_wait()
        cls.three.stop()
        cls.put(cls.one, "binary ", 0)
        cls.one.scan()
        wait_until("the second device has the files", lambda: text_of(cls.two.files / LOST) == "binary " + LOST and cls.one.is_in_step_with(cls.two))

    def test_its_bytes_go_to_all_but_where_they_were_mended(self):
        for name in (KEPT, LOST):
            self.rot(name)
        self.record(self.one, "changed ", -1000)
        self.record(self.three, "an older ", -2000)
        fates = self.foretold()
        for name in (KEPT, LOST):
            self.assertEqual(fates[name]["fate"], "lost")
        self.mend(KEPT, "-a")
        for device in (self.two, self.three):
            device.start()
        wait_until("the third device has taken both", lambda: text_of(self.three.files / LOST) == "rotten " + LOST and text_of(self.three.files / KEPT) == "changed " + KEPT)
        self.one.start()
        wait_until("the rotten bytes are on all devices", lambda: text_of(self.one.files / LOST) == "rotten " + LOST)
        wait_until("it came to an end that was told", lambda: not self.untrue(fates, LOST))
        self.stop()
        for device in self.devices:
            self.assertEqual(text_of(device.files / KEPT), "changed " + KEPT)


class BelowAFile(LateRot):
    """On the second device a file stands in place of a directory, below which files are missing."""

    @classmethod
    def synchronise(cls):
        (cls.one.files / "folder" / "inner").mkdir(parents=True)
        for name in (KEPT, LOST):
            (cls.one.files / "folder" / "inner" / name).write_text("binary " + name)
        cls.scan_and_wait()

    def test_what_is_said_can_be_done_from_the_top(self):
        inner = self.two.files / "folder" / "inner"
        for name in (KEPT, LOST):
            (inner / name).unlink()
        inner.rmdir()
        inner.write_text("a file")
        one, two = self.label(self.one), self.label(self.two)
        text = self.answer()[1]
        copied = f"copy it from {one}, as it is there, with all below it (cp -a, or rsync -aI, as the user who runs Syncthing there)"
        steps = ("copy it elsewhere if what stands there may be right: it goes by the steps below", "delete what stands there in its place", copied)
        told = "".join(f"    {number}. on {two}: {step}\n" for number, step in enumerate(steps, 1))
        self.assertIn("  for folder/inner, with 2 names below it:\n" + told, text)
        inner.rename(self.room / "moved away")
        subprocess.run(["cp", "-a", self.one.files / "folder" / "inner", inner], check=True)
        self.assertEqual(self.verdict(), "settled")
        self.start()
        self.two.scan()
        wait_until("both devices are in step", lambda: self.one.is_in_step_with(self.two) and self.two.is_in_step_with(self.one))
        self.stop()
        for device in self.devices:
            self.assertEqual([text_of(device.files / "folder" / "inner" / name) for name in (KEPT, LOST)], ["binary " + KEPT, "binary " + LOST])


if __name__ == "__main__":
    main()
