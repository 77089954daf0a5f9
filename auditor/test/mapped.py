#!/usr/bin/env python3
"""The audit of a real device whose Syncthing runs as in a container: in a mount namespace of its own, in which its directories are elsewhere.

    auditor/test/mapped.py
"""

import subprocess
import unittest
import xml.etree.ElementTree as xml

from exporting import IN_STEP, Exporting, main, run
from live_looks import rot
from syncthing import FOLDER

# Runs Syncthing on the home below its own /inside, as a container's start does. Nothing else of the machine sees that mount.
CONTAINER = '''#!/bin/sh
[ "$1" != --version ] || exec {program} --version
HOME={inside} exec unshare --map-root-user --mount sh -c 'mount --bind "$0" "$1" && shift && exec "$@"' {outside} {inside} \\
    {program} serve --config={inside}/home --data={inside}/home --no-browser --no-restart
'''


def can_unshare():
    """Whether this system lets a test have a mount namespace."""
    return subprocess.run(["unshare", "--map-root-user", "--mount", "mount", "--bind", "/tmp", "/mnt"], capture_output=True).returncode == 0


@unittest.skipUnless(can_unshare(), "this system gives no mount namespace")
class Mapped(Exporting):
    """Two devices in step; the second one runs as in a container."""

    @classmethod
    def configure(cls):
        super().configure()
        cls.outside, cls.inside = cls.room / "two", cls.room / "inside"
        cls.inside.mkdir()
        start = cls.room / "container"
        start.write_text(CONTAINER.format(program=cls.two.program, inside=cls.inside, outside=cls.outside))
        start.chmod(0o755)
        cls.two.program = str(start)
        tree = xml.parse(cls.two.home / "config.xml")
        folder = tree.getroot().find("folder")
        folder.set("path", "~/files")
        folder.find("versioning/fsPath").text = f"{cls.inside}/old"
        cls.two.write(tree, cls.two.home / "config.xml")
        cls.maps = ["--map", f"~={cls.outside}", "--map", f"{cls.inside}={cls.outside}"]

    @classmethod
    def device_numbers(cls):
        return {}

    def told(self, *words):
        """The status of a command, and what it tells."""
        ran = run([self.program, *words])
        return ran.returncode, ran.stdout, ran.stderr

    def of_homes(self, *maps):
        """An answer of both homes, while no device runs."""
        return self.told("check", "--home", self.one.home, "--home", self.two.home, *maps, "--syncaudit", self.auditor)

    def of_devices(self, *maps):
        """An answer of both devices, while they run."""
        return self.told("run", self.one.home, self.two.home, *maps, "--still", "0", "--syncaudit", self.auditor)

    def test_nothing_of_the_container_is_on_this_machine(self):
        self.assertEqual(list(self.inside.iterdir()), [])

    def test_a_stopped_container(self):
        status, told, stderr = self.of_homes(*self.maps)
        self.assertEqual((status, told.startswith(f"{FOLDER}: {IN_STEP};")), (0, True), told + stderr)
        with rot(self.two.files / "folder" / "large", 1000):
            status, told, stderr = self.of_homes(*self.maps)
        self.assertEqual((status, "folder/large" in told), (1, True), told + stderr)

    def test_a_container_that_runs(self):
        """Syncthing is asked whether it is idle; its folder is hashed where it is on this machine."""
        self.start()
        try:
            still = self.of_devices(*self.maps)
            with rot(self.two.files / "folder" / "large", 1000):
                rotten = self.of_devices(*self.maps)
            rescanned = self.of_devices(*self.maps, "--rescan")
        finally:
            self.stop()
        for status, told, stderr in (still, rescanned):
            self.assertEqual((status, told.startswith(f"{FOLDER}: {IN_STEP};")), (0, True), told + stderr)
        status, told, stderr = rotten
        self.assertEqual((status, "folder/large" in told), (1, True), told + stderr)

    def test_a_night(self):
        configuration = self.room / "watch.xml"
        maps = f'<map from="~" to="{self.outside}"/><map from="{self.inside}" to="{self.outside}"/>'
        configuration.write_text(f'<watch><device place="{self.one.home}"/><device place="{self.two.home}">{maps}</device><state path="{self.room}/state"/></watch>')
        status, told, stderr = self.told("watch", configuration, "--still", "0", "--syncaudit", self.auditor)
        self.assertEqual((status, told.startswith(f"{FOLDER}: {IN_STEP};")), (0, True), told + stderr)

    def test_without_its_maps(self):
        """The device is left out, and told; with a map that lacks a folder, too."""
        for answer in (self.of_homes, self.of_devices):
            for maps in ([], ["--map", f"{self.inside}={self.outside}"]):
                status, told, stderr = answer(*maps)
                self.assertEqual((status, "left out: " in told), (6, True), told + stderr)


if __name__ == "__main__":
    main()
