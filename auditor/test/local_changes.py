#!/usr/bin/env python3
"""The audit of real devices of which one only receives and recorded local changes, where more changes after that.

    auditor/test/local_changes.py
"""

from exporting import Exporting, main
from syncthing import FOLDER, version_of, wait_until, wait_until_in_step


class ReceiveOnlyChangedAgain(Exporting):
    """A device that only receives recorded local changes, and the same names changed on its disk after that. 'own' no other device ever changed."""

    kinds = {"two": "receiveonly"}
    texts = {"text": "my second one", "empty": "back", "folder/mode": "my own"}

    @classmethod
    def synchronise(cls):
        super().synchronise()
        cls.stop()
        cls.two.configure(cls.devices)
        cls.start()
        (cls.two.files / "own").write_text("of two")
        cls.two.scan()
        (cls.one.files / "folder/mode").write_text("of one")
        cls.one.scan()
        wait_until_in_step(cls.one, cls.two)

    @classmethod
    def setUpClass(cls):
        super().setUpClass()
        files = cls.two.files
        for name in ("text", "folder/large", "folder/mode", "own"):
            (files / name).write_text("my own")
        (files / "empty").unlink()
        cls.configure()
        cls.start()
        cls.two.scan()
        wait_until("the other device knows of the changes", lambda: cls.one.knows_all_of(cls.two))
        cls.stop()
        for name in ("text", "empty"):
            (files / name).write_text(cls.texts[name])
        (files / "folder/mode").chmod(0o600)
        for name in ("folder/large", "own"):
            (files / name).unlink()

    def test_what_becomes_of_the_second_change(self):
        """Syncthing 1.19 puts it beside what the others have, and nobody has to revert. 1.29 keeps it as a local change. What is missing either of
        them brings back. The answer says so."""
        fates, is_copied = self.foretold(), version_of(self.two.program).startswith("syncthing v1.19")
        self.start()
        self.two.scan()
        wait_until("what is missing is brought back", lambda: all((self.two.files / name).exists() for name in ("folder/large", "own")))
        wait_until("all is taken", lambda: self.two.shows_up_to_date() and self.two.knows_all_of(self.one))
        for name in ("folder/large", "own"):
            self.assertEqual((self.two.files / name).read_bytes(), (self.one.files / name).read_bytes())
        self.assert_came(fates, "text", "empty", "folder/mode", "folder/large", "own")
        if not is_copied:
            self.assert_they_stay()
            self.two.api("POST", f"db/revert?folder={FOLDER}")
        wait_until("the others' files are there", lambda: all((self.two.files / name).read_bytes() == (self.one.files / name).read_bytes() for name in self.texts))
        self.stop()
        for name, text in self.texts.items():
            self.assertEqual([path.read_text() for path in self.two.files.glob(f"{name}.sync-conflict-*")], [text] if is_copied else [])

    def assert_they_stay(self):
        """The second changes stand there, without copies, and count as local ones."""
        self.assertEqual({name: (self.two.files / name).read_text() for name in self.texts}, self.texts)
        self.assertEqual(list(self.two.files.rglob("*.sync-conflict-*")), [])
        self.assertEqual(self.two.api("GET", f"db/status?folder={FOLDER}")["receiveOnlyChangedFiles"], len(self.texts))


class ReceiveOnlyThatOthersPassed(Exporting):
    """A device that only receives recorded local changes, and the other one changed the same names while it was off."""

    kinds = {"two": "receiveonly"}

    def test_syncthing_takes_what_the_other_one_has(self):
        """It does so by itself, as the answer says, and keeps the local changes as conflict copies."""
        files = self.two.files
        for name in ("text", "folder/large"):
            (files / name).write_text("my own")
        (files / "empty").unlink()
        self.two.start()
        self.two.scan()
        self.two.stop()
        for name in ("text", "empty"):
            (self.one.files / name).write_text("of one")
        self.one.start()
        self.one.scan()
        self.one.stop()
        fates = self.foretold()
        self.start()
        wait_until("the others' files are there", lambda: all((files / name).exists() and (files / name).read_text() == "of one" for name in ("text", "empty")))
        wait_until("all is taken", lambda: self.two.shows_up_to_date() and self.two.knows_all_of(self.one))
        self.stop()
        self.assert_came(fates, "text", "empty", "folder/large")
        self.assertEqual([path.read_text() for path in files.glob("*.sync-conflict-*")], ["my own"])
        self.assertEqual((files / "folder/large").read_text(), "my own")


class ReceiveOnlyChangedItsOwnAgain(Exporting):
    """A file that a device made while it sent, too, and that no other one ever changed: the device only receives now, recorded a local change, and the
    file changed after that."""

    @classmethod
    def synchronise(cls):
        super().synchronise()
        (cls.two.files / "own").write_text("of two")
        cls.two.scan()
        wait_until_in_step(cls.one, cls.two)

    def test_the_second_change_stays(self):
        """The others have nothing that the device lacks, so the scan makes no conflict, as the answer says."""
        self.two.configure(self.devices, kind="receiveonly")
        self.start()
        (self.two.files / "own").write_text("changed")
        self.two.scan()
        wait_until("the other device knows of the change", lambda: self.one.knows_all_of(self.two))
        self.stop()
        (self.two.files / "own").write_text("changed again")
        fates = self.foretold()
        self.start()
        self.two.scan()
        wait_until("nothing is to be taken", lambda: self.two.shows_up_to_date() and self.two.knows_all_of(self.one))
        self.stop()
        self.assert_came(fates, "own")
        self.assertEqual((self.two.files / "own").read_text(), "changed again")
        self.assertEqual((self.one.files / "own").read_text(), "of two")
        self.assert_it_goes_to_all()

    def assert_it_goes_to_all(self):
        """Once the folder sends, too, the other device takes the change, and neither has kept a copy of anything."""
        self.two.configure(self.devices)
        self.start()
        self.two.scan()
        wait_until_in_step(self.one, self.two)
        self.stop()
        for device in self.devices:
            self.assertEqual((device.files / "own").read_text(), "changed again")
            self.assertEqual(list(device.files.glob("own.sync-conflict-*")), [])
        self.assertEqual(self.verdict(), "settled")


if __name__ == "__main__":
    main()
