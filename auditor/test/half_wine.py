#!/usr/bin/env python3
"""The walk of disks as a program for Windows, under wine, and for 64-bit ARM, under qemu, on a directory of odd names. It needs no Syncthing, but wine64 and
qemu-user.

    auditor/test/half_wine.py
"""

import json
import os
import shutil
import subprocess
import tempfile
import unittest
from pathlib import Path

from exporting import built, go_environment, is_over, main, shown

WINE = shutil.which("wine64") or "/usr/lib/wine/wine64"
TOKEN = "AEAQCAI-BAEAQCA-AIBAEAQ-CAIBAEC-AQCAIBA-EAQCAIA-BAEAQCA-IBAEAQC:" + "0f" * 16
EMULATOR = shutil.which("qemu-aarch64") or shutil.which("qemu-aarch64-static")
SECONDS = 600
LONG = "/".join(["x" * 60] * 8)
# Names that Windows reserves, that end in what it takes away, that differ in case, that are long or of several bytes a letter.
NAMES = ["plain.txt", "CON", "aux.txt", "dot.", "space ", "case/lower", "CASE/upper", "Ünïcode ☃ 😀.txt", f"{LONG}/deep.txt"]
# Names that are none on Windows: of each it is told that it can't be read.
NO_NAMES = ["back\\slash", 'quote"?*']
RESOLUTION = 100


class Walks(unittest.TestCase):
    """A directory of odd names, and the program that walks it for another system."""

    system = architecture = ""

    @classmethod
    def setUpClass(cls):
        if is_over():
            raise unittest.SkipTest("the time is over")
        room = tempfile.TemporaryDirectory(prefix="syncthing-audit-test-")
        cls.addClassCleanup(room.cleanup)
        cls.room = Path(room.name)
        cls.program = built(cls.room) / "syncthing-audit"
        cls.foreign = cls.room / "disk.exe"
        subprocess.run(["go", "build", "-p", "1", "-o", cls.foreign, "syncthing-audit/ondisk"], check=True,
                       env={**go_environment(cls.room), "GOOS": cls.system, "GOARCH": cls.architecture, "CGO_ENABLED": "0"})
        cls.docs = cls.room / "docs"
        (cls.docs / ".stfolder").mkdir(parents=True)
        for number, name in enumerate([*NAMES, "ignored.TMP", "sub/name", "sub/more", "large"]):
            path = cls.docs / name
            path.parent.mkdir(parents=True, exist_ok=True)
            path.write_bytes(name.encode() * (50000 if name == "large" else 1))
            os.utime(path, ns=(1_600_000_000_123_456_789 + number,) * 2)
        (cls.docs / ".stignore").write_text("*.tmp\r\nsub\\name\r\n")

    def walk(self, *words, directory, **options):
        """The lines of the part that a program writes, by name."""
        part = self.room / "part"
        part.unlink(missing_ok=True)
        ran = subprocess.run([*words, "--after", TOKEN, "-o", self.path(part, words), f"docs={self.path(directory, words)}"], capture_output=True,
                             text=True, timeout=SECONDS, **options)
        self.assertEqual(ran.returncode, 0, ran.stderr)
        head, *rest = map(json.loads, shown(self.program, part))
        return head, {json.dumps(line["name"]["name"]): line["name"] for line in rest if "name" in line}

    @staticmethod
    def path(path, words):
        """A path as a program takes it: wine has all of the system's below Z:."""
        return "Z:" + str(path).replace("/", "\\") if words[0] == WINE else str(path)


@unittest.skipUnless(EMULATOR, "Debian's package qemu-user isn't there")
class UnderQemu(Walks):
    """The program for 64-bit ARM writes what the one for this machine does."""

    system, architecture = "linux", "arm64"

    def test_odd_names(self):
        _, due = self.walk(self.program, "disk", directory=self.docs)
        _, names = self.walk(EMULATOR, self.foreign, directory=self.docs)
        self.assertLessEqual({json.dumps(name) for name in [*NAMES, "large"]}, set(names))
        self.assertEqual(names, due)


@unittest.skipUnless(os.access(WINE, os.X_OK), "Debian's package wine64 isn't there")
class UnderWine(Walks):
    """The program for Windows writes what the one for Linux does, but for what Windows hasn't."""

    system, architecture = "windows", "amd64"

    def under_wine(self, directory):
        environment = {**os.environ, "WINEPREFIX": str(self.room / "prefix"), "WINEDEBUG": "-all", "HOME": str(self.room)}
        return self.walk(WINE, self.foreign, directory=directory, env=environment)

    def test_odd_names(self):
        head, names = self.under_wine(self.docs)
        of_linux, due = self.walk(self.program, "disk", directory=self.docs)
        self.assertEqual(head["disk_half"]["system"], "windows")
        self.assertEqual((head["disk_half"]["resolution"], head["disk_half"]["no_modes"]), (RESOLUTION, True))
        self.assertEqual(head["folders"][0]["ignores"], {"lines": ["*.tmp", "sub/name"], "fold_case": True})
        self.assertEqual(of_linux["folders"][0]["ignores"]["lines"], ["*.tmp", "sub\\name"])
        plain = {json.dumps(name) for name in [*NAMES, "large", "sub/more"]}
        self.assertLessEqual(plain, set(names))
        self.assertNotIn(json.dumps("ignored.TMP"), names)
        self.assertNotIn(json.dumps("sub/name"), names)
        for name in plain:
            disk = due[name]["disk"]
            disk["ns"] = disk["ns"] // RESOLUTION * RESOLUTION
            disk["permissions"] = 0
            self.assertEqual(names[name]["disk"], disk, name)

    def test_names_that_are_none(self):
        """What Windows has no name for is told as what can't be read."""
        odd = self.room / "odd"
        (odd / ".stfolder").mkdir(parents=True)
        for name in NO_NAMES:
            (odd / name).write_text("odd")
        _, names = self.under_wine(odd)
        self.assertEqual({name: [out["kind"] for out in line["out"]] for name, line in names.items()},
                         {json.dumps(name): ["unreadable"] for name in NO_NAMES})


if __name__ == "__main__":
    main()
