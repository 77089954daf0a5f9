#!/usr/bin/env python3
"""The audit of real Syncthing devices one of which isn't trusted: the folder is encrypted there.

    auditor/test/encrypted.py
"""

import xml.etree.ElementTree as xml

from exporting import Exporting, main
from syncthing import FOLDER, wait_until, wait_until_in_step


class Encrypted(Exporting):
    """Two devices that share the folder with each other, and encrypted with a third one."""

    names = ("one", "two", "vault")

    @classmethod
    def configure(cls):
        cls.vault = cls.devices[2]
        for device in cls.devices[:2]:
            device.configure(cls.devices)
            path = device.home / "config.xml"
            tree = xml.parse(path)
            for sharing in tree.getroot().find("folder").findall("device"):
                if sharing.get("id") == cls.vault.id:
                    for old in sharing.findall("encryptionPassword"):
                        sharing.remove(old)
                    xml.SubElement(sharing, "encryptionPassword").text = "secret"
            tree.write(path)
        cls.vault.configure(cls.devices, kind="receiveencrypted")

    @classmethod
    def scan_and_wait(cls):
        cls.one.scan()
        wait_until_in_step(cls.one, cls.two)
        wait_until("the vault has something", lambda: any(path.name.endswith(".syncthing-enc") for path in cls.vault.files.iterdir()))
        wait_until("the vault has all", lambda: all(one.api("GET", f"db/completion?folder={FOLDER}&device={cls.vault.id}")["completion"] == 100
                                                    for one in (cls.one, cls.two)))

    @classmethod
    def device_numbers(cls):
        lines = [line.split() for line in cls.export("--leave-out", "encrypted").stderr.splitlines() if ": device " in line]
        return {words[4]: int(words[2]) for words in lines}

    def lines_without(self, *homes):
        """The lines of an audit that leaves out the vault, and its status."""
        ran = self.check_homes(homes, "--leave-out", "encrypted")
        return ran.returncode, ran.stdout.splitlines()

    def homes(self, *devices):
        return [device.home for device in devices]

    def test_the_devices_that_are_trusted_are_audited_without_it(self):
        self.assertNotEqual([path for path in self.vault.files.iterdir() if path.name.endswith(".syncthing-enc")], [])
        for devices, why in ((self.devices, "the folder is encrypted there"), (self.devices[:2], "the folder is shared encrypted with it by device")):
            ran = self.check_homes(self.homes(*devices), "--strict")
            self.assertEqual((ran.returncode, ran.stdout), (2, ""))
            self.assertIn("1 refused; --leave-out encrypted leaves it out", ran.stderr)
            status, lines = self.lines_without(*self.homes(*devices))
            self.assertEqual((status, lines[:2]), (6, ["settled as far as audited", f"folder {FOLDER}: 6 names, 1 deleted, 2 devices"]))
            left, = [line for line in lines if line.startswith("left out: ")]
            self.assertIn(why, left)
        path = self.two.files / "text"
        path.write_text("another")
        try:
            self.assertEqual(self.lines_without(*self.homes(*self.devices))[1][0], self.fault("StoreDiffers", "text", self.two))
        finally:
            path.write_text("hello")

    def test_the_vault_alone_is_not_audited(self):
        ran = self.check_homes(self.homes(self.vault), "--leave-out", "encrypted")
        self.assertEqual((ran.returncode, ran.stdout), (2, ""))
        self.assertRegex(ran.stderr, f"there is nothing to audit: no name of any folder is left. Left out: {FOLDER} of .*: the folder is encrypted there")


if __name__ == "__main__":
    main()
