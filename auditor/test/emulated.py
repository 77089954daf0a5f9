#!/usr/bin/env python3
"""The audit that ./package builds for ARM reads the same of real devices as the one for this machine. The user mode of qemu
runs it: nothing here is tried on such a machine.

    auditor/test/emulated.py
"""

import os
import shutil
import subprocess
import unittest

from exporting import PROGRAM, SOURCES, go_environment, main, run
from large_folders import rot
from live_looks import Live
from syncthing import FOLDER, wait_until_in_step

EMULATORS = {"arm64": "qemu-aarch64", "arm": "qemu-arm"}
NARROW = "arm"
SECONDS_OF_BUILDING = 120
STATUS_OF_TIMEOUT = 124
BUILD = 'set -eu; top=$1; . "$top/tools/release/put.sh"; architecture=$2; build_exporter "$3"'
# Years before 1970 and after 2038, in seconds from 1970 on.
OF_1960, OF_2040 = -315619200, 2208988800


def emulator(architecture):
    """The program that runs what is built for this architecture; nothing where it isn't there."""
    name = EMULATORS[architecture]
    return shutil.which(name) or shutil.which(f"{name}-static")


def build(room, architecture):
    """Builds the audit for another architecture, and gives a script that runs it."""
    path = room / f"{PROGRAM}-{architecture}"
    ran = subprocess.run(["timeout", str(SECONDS_OF_BUILDING), "bash", "-c", BUILD, "build", SOURCES.parent, architecture, path],
                         env={**go_environment(room), "GOFLAGS": "-p=1"}, capture_output=True, text=True)
    if ran.returncode == STATUS_OF_TIMEOUT:
        raise unittest.SkipTest(f"building for {architecture} takes over {SECONDS_OF_BUILDING} seconds; the next run goes on with it")
    if ran.returncode:
        raise AssertionError(f"it can't be built for {architecture}: {ran.stderr}")
    script = room / architecture
    script.write_text(f'#!/bin/sh\nexec {emulator(architecture)} {path} "$@"\n')
    script.chmod(0o755)
    return script


class OnARM(Live):
    """Two devices that run, with other bytes on one of them, and with times that 32 bits don't have."""

    @classmethod
    def setUpClass(cls):
        if not all(map(emulator, EMULATORS)):
            raise unittest.SkipTest("what is built for ARM can't be run here: apt-get install qemu-user")
        super().setUpClass()
        rot(cls.two.files / "folder" / "large", 1000)
        cls.emulated = {architecture: build(cls.room, architecture) for architecture in EMULATORS}

    @classmethod
    def synchronise(cls):
        for name, seconds in (("early", OF_1960), ("late", OF_2040)):
            (cls.one.files / name).touch()
            os.utime(cls.one.files / name, (seconds, seconds))
        super().synchronise()

    def test_parts_are_the_same(self):
        self.stop()
        try:
            for device in self.devices:
                expected = self.lines(self.program, device)
                self.assertEqual(sum("disk" in line.get("name", ()) for line in expected[1:]), 7)
                self.assertEqual(self.lines(self.emulated["arm64"], device), expected)
                self.assert_same_but_late(self.lines(self.emulated[NARROW], device), expected)
        finally:
            self.start()
            wait_until_in_step(*self.devices)

    def assert_same_but_late(self, lines, expected):
        """The lines are these, but for the file whose time has more than 32 bits: it is left out."""
        late = next(line["name"] for line in expected[1:] if line.get("name", {}).get("name") == "late")
        self.assertEqual(late.pop("disk")["s"], OF_2040)
        late["out"] = [{"kind": "unreadable", "why": "a 32-bit program can't read its time, which isn't between December 1901 and January 2038"}]
        self.assertEqual(lines, expected)

    def test_a_home_on_which_syncthing_runs_is_refused(self):
        for program in self.emulated.values():
            ran = run([program, "part", "--home", self.one.home, "-o", self.room / "refused.part"])
            self.assertEqual(ran.returncode, 2)
            self.assertIn(f"refused: Syncthing runs on {self.one.home} (its index is locked)", ran.stderr)

    def test_looks_at_running_devices(self):
        expected = self.look()
        self.assertEqual((expected[0], expected[1][0]), (1, self.fault("StoreDiffers", "folder/large", self.two)))
        self.program = self.emulated["arm64"]
        self.assertEqual(self.look_and_tell(), expected)
        self.program = self.emulated[NARROW]
        status, lines = self.look_and_tell("--leave-out", "unreadable")
        self.assertEqual((status, lines[0]), (expected[0], expected[1][0]))
        self.assertEqual({line.split(" on ")[0] for line in lines if line.startswith("left out: ")}, {f"left out: {FOLDER} late"})

    def look_and_tell(self, *words):
        """Looks at the devices by the emulated program. The one for this machine answers."""
        self.begin()
        self.end()
        return self.told(*words)


if __name__ == "__main__":
    main()
