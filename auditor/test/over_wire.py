#!/usr/bin/env python3
"""Real Syncthing devices on loopback that are asked over the wire while they run.

    auditor/test/over_wire.py
"""

import json
import os
import re
import time
from types import SimpleNamespace

from exporting import Exporting, main, run
from syncthing import FOLDER, free_ports, wait_until

BLOCK = 128 << 10
SECONDS_OF_A_RESCAN = 3
# What a device logs of a connection of any device that it knows.
OF_CONNECTIONS = re.compile(r"Established secure connection|New device connection|Lost primary connection|Connection (to|from) |Device \S+ client is|"
                            r"has a new index ID|Additional connection|Connected to already connected device|Replacing old connection|Listen \(BEP/tcp|closed: |Joined swarm|[Ff]ailed to exchange Hello")


class OverTheWire(Exporting):
    """Devices that run are asked over the wire for their indexes and bytes: each tells what its part has, faults on a disk are found, and
    nothing at a device changes."""

    @classmethod
    def configure(cls):
        observer = run([cls.program.with_name("overwire"), cls.room / "observer"], check=True).stdout.strip()
        cls.observer = SimpleNamespace(id=observer, listen_port=next(free_ports))
        for device in cls.devices:
            device.configure([*cls.devices, cls.observer])

    @classmethod
    def synchronise(cls):
        files = cls.one.files
        (files / "ignored").write_text("ignored")
        for name in ("rot", "truncated", "cut at a block", "grown", "emptied", "missing"):
            (files / name).write_bytes(os.urandom(3 * BLOCK + 5))
        (files / "one byte grown").write_bytes(b"x")
        (files / "one byte").write_bytes(b"x")
        (files / "empty grown").touch()
        (files / "ünïcode").write_text("text")
        super().synchronise()
        (cls.two.files / "of two").write_text("text")
        (cls.two.files / ".stignore").write_text("ignored\n")
        cls.two.scan()
        wait_until_in_step_but_ignored(cls.devices)

    @classmethod
    def plant(cls):
        """Plants faults on the second device's disk, which no scan finds while the device runs on."""
        files = cls.two.files
        with (files / "rot").open("r+b") as file:
            file.seek(BLOCK + 7)
            byte = file.read(1)
            file.seek(BLOCK + 7)
            file.write(bytes([byte[0] ^ 1]))
        os.truncate(files / "truncated", 2 * BLOCK + 100)
        os.truncate(files / "cut at a block", BLOCK)
        os.truncate(files / "emptied", 0)
        for name in ("grown", "one byte grown", "empty grown"):
            with (files / name).open("ab") as file:
                file.write(b"more")
        (files / "missing").unlink()
        (files / "doomed").write_text("back")

    def asked(self, device):
        """What is heard and found of a running device. Under load a device may close a connection that was just made."""
        for _ in range(3):
            ran = run([self.program.with_name("overwire"), self.room / "observer", FOLDER, device.id, f"127.0.0.1:{device.listen_port}"])
            if "connection is closed" not in ran.stderr:
                break
            time.sleep(2)
        self.assertEqual(ran.returncode, 0, ran.stderr)
        return json.loads(ran.stdout)

    def state(self, device):
        """What must not change at a device that is looked at."""
        status = device.api("GET", f"db/status?folder={FOLDER}")
        paths = sorted([device.home / "config.xml", *device.files.rglob("*")])
        return {"status": {name: status[name] for name in ("sequence", "state", "stateChanged", "localFiles", "localBytes", "localDeleted",
                                                           "globalFiles", "globalBytes", "needTotalItems", "errors")},
                "disk": [(str(path), about.st_size, about.st_mode, about.st_mtime_ns, about.st_ctime_ns) for path in paths
                         for about in [path.lstat()]],
                "changes": device.api("GET", "events/disk?since=0&timeout=1"),
                "log": [line for line in device.log.read_text().splitlines() if not OF_CONNECTIONS.search(line)]}

    def lines_of(self, device):
        """A part's head, and its lines of names, by name."""
        head, *lines = map(json.loads, self.shown(device))
        return head, {line["name"]["name"]: line["name"] for line in lines if "name" in line}

    def test_over_the_wire_as_in_parts(self):
        self.start()
        try:
            wait_until_in_step_but_ignored(self.devices)
            self.plant()
            before = [self.state(device) for device in self.devices]
            asked = [self.asked(device) for device in self.devices]
            time.sleep(SECONDS_OF_A_RESCAN)
            after = [self.state(device) for device in self.devices]
        finally:
            self.stop()
        self.assertEqual(before, after)
        self.assertEqual([(one["asked"], one["since_then"]) for one in asked], [(0, 0)] * 2)
        self.check_faults({one["name"]: one for one in asked[1]["names"]})
        self.assertEqual({one["name"] for one in asked[0]["names"] if one["state"] not in ("same", "missing")}, set())
        for device, other in ((0, 1), (1, 0)):
            self.check_part(self.devices[device], asked[device], self.devices[other], asked[other])

    def check_faults(self, names):
        """Checks that each fault is found as it is."""
        found = {name: (one["state"], one.get("content", {}).get("size"), one.get("differ", {}).get("ranges", [])) for name, one in names.items()}
        large = 3 * BLOCK + 5
        expected = {"rot": ("differs", large, [[1, 1]]), "truncated": ("differs", 2 * BLOCK + 100, [[2, 3]]), "cut at a block": ("differs", BLOCK, [[1, 3]]),
                    "emptied": ("differs", 0, [[0, 3]]), "grown": ("differs", large + 4, [[3, 3]]), "one byte grown": ("differs", 5, [[0, 0]]),
                    "empty grown": ("differs", 4, [[0, 0]]), "missing": ("missing", None, []), "doomed": ("present", 4, []),
                    "one byte": ("same", 1, []), "empty": ("same", 0, []), "ünïcode": ("same", 4, []), "ignored": ("ignored", None, []),
                    "folder": ("missing", None, []), "link": ("missing", None, [])}
        self.assertEqual({name: found.get(name) for name in expected}, expected)

    def check_part(self, device, asked, other, of_other):
        """Checks that a device tells over the wire what its part has."""
        head, lines = self.lines_of(device)
        folder = head["folders"][0]
        self.assertEqual((asked["index_id"], asked["highest"]), (folder["index_id"], folder["max"]))
        known = {one["Device"]: (str(one["IndexID"]), one["Sequence"]) for one in asked["folder"]["Devices"]}
        self.assertEqual({one["device"]: (one["index_id"], one["max"]) for one in folder["views"] if one["device"] == other.id},
                         {other.id: known[other.id]})
        names = {one["name"]: one for one in asked["names"]}
        self.assertEqual({name: one["own"] for name, one in names.items() if "own" in one},
                         {name: one["own"] for name, one in lines.items() if "own" in one})
        # A part leaves out what another device ignores.
        hashed = {name: line["disk"]["contents"][0] for name, line in lines.items() if "contents" in line.get("disk", {}) and "own" in line}
        self.assertEqual({name: names[name].get("content") for name in hashed}, hashed)
        self.assertEqual({name: names[name].get("differ") for name in hashed}, {name: lines[name]["disk"].get("differ") for name in hashed})
        self.assertGreater(len(hashed), 8)
        seen = {one["name"]: one["own"] for one in of_other["names"] if "own" in one and one["own"]["sequence"] <= known[other.id][1]}
        views = {name: {**one["own"], "sequence": seen["same"]} if "same" in seen else seen["record"]
                 for name, one in lines.items() for seen in one.get("views", []) if folder["views"][seen["view"]]["device"] == other.id}
        self.assertEqual(views, seen)


def wait_until_in_step_but_ignored(devices):
    """Waits until both devices have all of each other."""
    one, two = devices
    wait_until("both have all", lambda: all(device.shows_up_to_date() and device.knows_all_of(other)
                                            for device, other in ((one, two), (two, one))))


if __name__ == "__main__":
    main()
