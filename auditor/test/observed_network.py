#!/usr/bin/env python3
"""Real Syncthing devices that announce themselves in a network of their own, and an observer that knows their ids alone.

    auditor/test/observed_network.py
"""

import ctypes
import json
import os
import re
import shutil
import subprocess
import time
import unittest
import xml.etree.ElementTree as xml
from types import SimpleNamespace

from exporting import SOURCES, main, run
from observed import Observing
from syncthing import FOLDER, free_ports, wait_until_in_step

CLONE_NEWNET = 0x40000000
SECONDS_OF_A_NEW_USER = 600
LIBC = ctypes.CDLL(None, use_errno=True)
COMMANDS = ("ip link set lo up", "ip link add lan type veth peer name nal", "ip link set lan up", "ip link set nal up", "ip addr add 192.0.2.1/24 dev lan", "ip addr add fe80::1/64 dev lan nodad")


class InANetwork(Observing):
    """Devices that announce themselves in a network of their own."""

    __test__ = False

    @classmethod
    def setUpClass(cls):
        if os.geteuid() != 0 or shutil.which("ip") is None:
            raise unittest.SkipTest("a network of its own needs root and 'ip'")
        cls.before = os.open("/proc/self/ns/net", os.O_RDONLY)
        cls.addClassCleanup(cls.leave)
        if LIBC.unshare(CLONE_NEWNET) != 0:
            raise unittest.SkipTest("this system gives no network of its own")
        for command in COMMANDS:
            if subprocess.run(command.split(), capture_output=True).returncode != 0:
                raise unittest.SkipTest(f"'{command}' fails")
        super().setUpClass()

    @classmethod
    def leave(cls):
        """Goes back to the network of before."""
        LIBC.setns(cls.before, CLONE_NEWNET)
        os.close(cls.before)

    @classmethod
    def configure(cls):
        super().configure()
        for device in cls.devices:
            cls.announce(device)

    @classmethod
    def announce(cls, device):
        """Has a device announce itself, at all addresses of this machine."""
        path = device.home / "config.xml"
        tree = xml.parse(path)
        tree.getroot().find("options/localAnnounceEnabled").text = "true"
        tree.getroot().find("options/listenAddress").text = f"tcp://0.0.0.0:{device.listen_port}"
        device.write(tree, path)


class ObservedInTheNetwork(InANetwork):
    """By their announcements devices are found whose addresses nobody gave, and again where they moved."""

    __test__ = True
    names = ("one", "two")

    def test_devices_are_found(self):
        self.start()
        self.addCleanup(self.stop)
        wait_until_in_step(*self.devices)
        words = [self.program, "observe", "--home", self.room / "observer", "--folder", FOLDER, "--syncaudit", self.auditor, "--still", "0", "--json"]
        ran = run([*words, *(device.id for device in self.devices)])
        told = json.loads(ran.stdout)
        self.assertEqual((ran.returncode, told["left_out"], told["folders"][0]["names"]), (6, [], 6), ran.stderr)
        kept = json.loads((self.room / "observer" / "addresses.json").read_text())["devices"]
        self.assertEqual({address.rpartition(":")[2] for address in kept.values()}, {str(device.listen_port) for device in self.devices})
        two = self.devices[1]
        two.stop()
        two.listen_port = next(free_ports)
        self.announce(two)
        two.start()
        ran = run(words)
        told = json.loads(ran.stdout)
        self.assertEqual((ran.returncode, told["left_out"]), (6, []), ran.stderr)
        two.stop()
        ran = run(words)
        told = json.loads(ran.stdout)
        self.assertEqual((ran.returncode, [one["kind"] for one in told["left_out"]]), (6, ["absent"]), ran.stderr)


class ByTheFirstPage(InANetwork):
    """A new user goes by docs/start.md, with three devices on which nothing is installed: from nothing to the rotten file and its device."""

    __test__ = True

    @classmethod
    def configure(cls):
        for device in cls.devices:  # no device knows an observer
            device.configure(cls.devices)
            cls.announce(device)

    def test_from_nothing_to_the_rotten_file(self):
        page = (SOURCES.parent / "docs/start.md").read_text()
        asked, = re.findall(r"^    syncthing-audit (observe [A-Z -]+)$", page, re.MULTILINE)
        made, = re.findall(r"`syncthing-audit (observe --init)` prints a device id", page)
        rotten = self.devices[1].files / "folder" / "large"
        about = rotten.stat()
        rotten.write_bytes(b"rot" + rotten.read_bytes()[3:])
        os.utime(rotten, ns=(about.st_atime_ns, about.st_mtime_ns))
        self.start()
        self.addCleanup(self.stop)
        wait_until_in_step(*self.devices)
        environment = {**os.environ, "HOME": str(self.room), "XDG_STATE_HOME": "", "SYNCAUDIT": str(self.auditor)}
        began = time.monotonic()
        type(self).observer = SimpleNamespace(id=run([self.program, *made.split()], env=environment, check=True).stdout.strip())
        for device in self.devices:
            self.add(device)
        ran = run([self.program, *self.with_ids(asked)], env=environment)
        seconds = time.monotonic() - began
        self.assertEqual(ran.returncode, 1, ran.stderr)
        self.assertRegex(ran.stdout, rf"(?m)^folder/large  \(in docs, .*\)\n  {self.devices[1].id[:7]}: other bytes on the disk")
        self.assertNotIn("left out", ran.stdout)
        self.assertLess(seconds, SECONDS_OF_A_NEW_USER)

    def with_ids(self, asked):
        """The words of the page, with the ids of the devices."""
        ids = iter([device.id for device in self.devices])
        return [next(ids) if word.endswith("-ID") else word for word in asked.split()]


if __name__ == "__main__":
    main()
