#!/usr/bin/env python3
"""Real Syncthing devices on loopback, one of which isn't trusted, that an observer audits while they run.

    auditor/test/observed_encrypted.py
"""

import os
import xml.etree.ElementTree as xml

from exporting import main
from observed import Observing
from syncthing import FOLDER, wait_until, wait_until_in_step

PASSWORD = "a secret of several words"


class ObservedEncrypted(Observing):
    """With the password the untrusted device's files are read as the others': rot, a cut and a missing file are found there."""

    __test__ = True
    names = ("one", "two", "vault")
    kinds = {"vault": "receiveencrypted"}

    @classmethod
    def configure(cls):
        super().configure()
        vault = cls.devices[2]
        for device in cls.devices[:2]:
            path = device.home / "config.xml"
            tree = xml.parse(path)
            for sharing in tree.getroot().find("folder").findall("device"):
                if sharing.get("id") == vault.id:
                    for old in sharing.findall("encryptionPassword"):
                        sharing.remove(old)
                    xml.SubElement(sharing, "encryptionPassword").text = PASSWORD
            device.write(tree, path)
        (cls.devices[0].files / "damaged").write_bytes(os.urandom(600_000))
        (cls.devices[0].files / "cut").write_bytes(os.urandom(300_000))
        (cls.devices[0].files / "gone").write_bytes(os.urandom(5_000))

    @classmethod
    def scan_and_wait(cls):
        one, two, vault = cls.devices
        one.scan()
        wait_until_in_step(one, two)
        wait_until("the vault has all", lambda: cls.sealed(vault) == sum(path.is_file() and not path.is_symlink() for path in one.files.rglob("*")) and all(
            device.api("GET", f"db/completion?folder={FOLDER}&device={vault.id}")["completion"] == 100 for device in (one, two)))

    def setUp(self):
        super().setUp()
        self.vault = self.devices[2]
        self.start()
        self.addCleanup(self.stop)
        self.scan_and_wait()
        self.passwords = self.room / "passwords"
        self.passwords.write_text(f"other x\n{FOLDER} {PASSWORD}\n")
        self.passwords.chmod(0o600)

    @staticmethod
    def sealed(vault):
        """How many files the vault has."""
        return sum(1 for path in vault.files.rglob("*") if path.is_file() and ".syncthing-enc" in str(path))

    def by_size(self, least):
        """A file of the vault, the first one of at least so many bytes."""
        return min((path for path in self.vault.files.rglob("*") if path.is_file() and ".syncthing-enc" in str(path) and path.stat().st_size >= least),
                   key=lambda path: path.stat().st_size)

    def put(self, path, data):
        """Puts bytes into a file under its time, or takes it away without any, until the case is over."""
        good, times = path.read_bytes(), path.stat()

        def write(data):
            path.write_bytes(data)
            os.utime(path, ns=(times.st_atime_ns, times.st_mtime_ns))
        self.addCleanup(write, good)
        if data is None:
            path.unlink()
        else:
            write(data)

    def test_without_a_password_it_is_counted(self):
        status, told = self.observed()
        left_out = [one for one in told["left_out"] if one["kind"] == "encrypted"]
        self.assertEqual((status, len(left_out), len(told["folders"][0]["devices"])), (6, 1, 2))
        self.assertRegex(left_out[0]["why"], r"^the folder is shared encrypted with it by device .*: .*the folder is encrypted there, and no password is given: 9 names, [0-9]+ bytes$")
        self.passwords.write_text(f"{FOLDER} another\n")
        status, told = self.observed("--passwords", self.passwords)
        self.assertEqual(status, 6)
        self.assertIn("with another password than the one that is given", [one for one in told["left_out"] if one["kind"] == "encrypted"][0]["why"])

    def test_with_the_password(self):
        status, told = self.observed("--passwords", self.passwords)
        folder = told["folders"][0]
        self.assertEqual((status, told["left_out"], len(folder["devices"]), folder["files"]), (6, [], 3, []))
        self.assertEqual([one["over_the_wire"].get("went_back_from") for one in folder["devices"]], [None] * 3)
        damaged, cut, gone = self.by_size(600_000), self.by_size(300_000), self.by_size(5_000)
        rot = bytearray(damaged.read_bytes())
        rot[200_000] ^= 1
        self.put(damaged, bytes(rot))
        self.put(cut, cut.read_bytes()[:200_000])
        self.put(gone, None)
        status, told = self.observed("--passwords", self.passwords)
        folder = told["folders"][0]
        found = {one["name"]: [(fault["device"], fault["cause"], fault["blocks"]["ranges"]) for fault in one["faults"]] for one in folder["files"]}
        self.assertEqual((status, found), (1, {"damaged": [(self.vault.id, "other-bytes", [[1, 1]])], "cut": [(self.vault.id, "other-bytes", [[1, 2]])]}))
        self.assertEqual([(one["name"], [(at["device"], at["why"]) for at in one["devices"]]) for one in folder["live"]["in_motion"]],
                         [("gone", [(self.vault.id, ["unscanned"])])])


if __name__ == "__main__":
    main()
