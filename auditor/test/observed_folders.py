#!/usr/bin/env python3
"""Real Syncthing devices on loopback that share several folders with an observer, which asks for all of them at once.

    auditor/test/observed_folders.py
"""

import json
import os
import time

from exporting import main, run
from observed import Observing
from over_wire import SECONDS_OF_A_RESCAN
from syncthing import FOLDER, wait_until, wait_until_in_step
from unasked import add_folder

OTHER = "photos"


class ObservedFolders(Observing):
    """Two folders of three devices, of which one shares only the first with the observer."""

    __test__ = True

    @classmethod
    def configure(cls):
        super().configure()
        for device in cls.devices:
            add_folder(device, OTHER, "Photos")
        for device in cls.devices[:2]:
            (device.files.parent / OTHER / "picture").write_bytes(os.urandom(300_000) if device is cls.devices[0] else b"")
        (cls.devices[1].files.parent / OTHER / "picture").unlink()

    def setUp(self):
        super().setUp()
        self.start()
        self.addCleanup(self.stop)
        wait_until_in_step(*self.devices)
        wait_until("all have the picture", lambda: all((device.files.parent / OTHER / "picture").stat().st_size == 300_000 and
                                                       self.has_all_of(device) for device in self.devices))

    def has_all_of(self, device):
        """Whether a device has all of the second folder, and knows that the others have it."""
        status = device.api("GET", f"db/status?folder={OTHER}")
        return status["state"] == "idle" and not status["needTotalItems"] and status["globalFiles"] == 1 and all(
            device.api("GET", f"db/completion?folder={OTHER}&device={other.id}")["completion"] == 100 for other in self.devices if other is not device)

    def look(self, *words):
        """What an observer answers of the folders that these words name, as JSON, where nothing at the devices changes meanwhile."""
        before = [self.state(device) for device in self.devices]
        ran = run([self.program, "observe", "--home", self.room / "observer", "--syncaudit", self.auditor, "--still", "0", "--json", *words])
        self.assertTrue(ran.stdout, ran.stderr)
        time.sleep(SECONDS_OF_A_RESCAN)
        self.assertEqual(before, [self.state(device) for device in self.devices])
        return ran.returncode, json.loads(ran.stdout)

    def rot(self, folder, name):
        """Changes a byte on the second device's disk under its time, until the case is over."""
        path = self.devices[1].files.parent / ("files" if folder == FOLDER else folder) / name
        good, about = path.read_bytes(), path.stat()

        def put(data):
            path.write_bytes(data)
            os.utime(path, ns=(about.st_atime_ns, about.st_mtime_ns))
        put(good[:200_000] + b"rot" + good[200_003:])
        self.addCleanup(put, good)

    def test_all_folders_and_some_of_them(self):
        """Without --folder all that is shared is looked at; with it those that are named. Rot is found in each, on its device."""
        self.rot(FOLDER, "folder/large")
        self.rot(OTHER, "picture")
        addresses = [self.address(device) for device in self.devices]
        rotten = {FOLDER: "folder/large", OTHER: "picture"}
        for asked in [], [FOLDER, OTHER], [OTHER]:
            status, told = self.look(*(word for one in asked for word in ("--folder", one)), *addresses)
            found = {one["id"]: [(file["name"], [(fault["device"], fault["cause"], fault["blocks"]["ranges"]) for fault in file["faults"]])
                                 for file in one["files"]] for one in told["folders"]}
            self.assertEqual((status, found), (1, {one: [(rotten[one], [(self.devices[1].id, "other-bytes", [[1, 1]])])] for one in asked or rotten}))
            self.assertEqual(told["left_out"], [])
        self.assertEqual(self.look()[0], 1)  # all folders of all devices that were reached before

    def test_a_folder_that_one_device_does_not_share_with_the_observer(self):
        three = self.devices[2]
        config = three.api("GET", f"config/folders/{OTHER}")
        three.api("PATCH", f"config/folders/{OTHER}", {"devices": [one for one in config["devices"] if one["deviceID"] != self.observer.id]})
        self.addCleanup(three.api, "PATCH", f"config/folders/{OTHER}", {"devices": config["devices"]})
        time.sleep(SECONDS_OF_A_RESCAN)
        for words in [], ["--folder", FOLDER, "--folder", OTHER]:
            status, told = self.look(*words, *(self.address(device) for device in self.devices))
            self.assertEqual((status, [len(one["devices"]) for one in told["folders"]]), (6, [3, 2]))
            left_out = [(one["kind"], one["folder"], one["device"], one["why"].split(";")[0]) for one in told["left_out"]]
            self.assertEqual([one[:2] + one[3:] for one in left_out], [("absent", OTHER, "it doesn't share the folder with the observer")])
            self.assertIn(three.id[:7], str(left_out))

    def test_a_device_that_is_not_reached_is_told(self):
        three = self.devices[2]
        three.stop()
        self.addCleanup(three.start)
        ran = run([self.program, "observe", "--home", self.room / "observer", "--syncaudit", self.auditor, "--still", "0", "--json",
                   *(self.address(device) for device in self.devices)])
        told = json.loads(ran.stdout)
        self.assertEqual((ran.returncode, {(one["kind"], one["folder"], one["why"][:27]) for one in told["left_out"]}),
                         (6, {("absent", FOLDER, "the device isn't reached: d"), ("absent", OTHER, "the device isn't reached: d")}))


if __name__ == "__main__":
    main()
