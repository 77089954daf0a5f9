#!/usr/bin/env python3
"""Real Syncthing devices on loopback that an observer audits while they run: what it finds is what their homes say afterwards.

    auditor/test/observed_faults.py
"""

import json
import shutil
import time
import unittest

from exporting import main
from observed import Observing
from syncthing import FOLDER, wait_until, wait_until_in_step

# Syncthing writes a changed configuration twice in this time.
SECONDS_UNTIL_SAVED = 10


def faults_of(told):
    """The faults of an answer: of each name the devices with their causes, and who has what is recorded."""
    return {one["name"]: (sorted((fault["device"], fault["cause"]) for fault in one["faults"]), sorted(one["have_recorded"]))
            for one in told["folders"][0]["files"]}


class ObservedFaults(Observing):
    """Devices on which something is wrong that their records show."""

    __test__ = False

    @classmethod
    def setUpClass(cls):
        if cls is ObservedFaults:
            raise unittest.SkipTest("it is a base of others")
        super().setUpClass()
        cls.start()
        cls.plant()
        cls.over_the_wire = cls("observed").observed()
        cls.stop()
        ran = cls.on_homes("check", [device.home for device in cls.devices], "--json", "--syncaudit", cls.auditor, "--observer", cls.observer.id)
        cls.of_homes = ran.returncode, json.loads(ran.stdout)

    def test_faults_are_those_that_the_homes_tell(self):
        self.assertEqual(self.over_the_wire[0], self.of_homes[0])
        found = faults_of(self.of_homes[1])
        self.assertEqual(set(found), self.planted)
        self.assertEqual(faults_of(self.over_the_wire[1]), found)

    def test_counts_are_those_of_the_homes(self):
        def counts(told):
            return [told["folders"][0][name] for name in ("names", "deleted", "being_deleted", "names_wrong")]
        self.assertEqual(counts(self.over_the_wire[1]), counts(self.of_homes[1]))


class ObservedReceiveOnly(ObservedFaults):
    """Local changes of a device that only receives."""

    __test__ = True
    kinds = {"three": "receiveonly"}
    planted = {"text", "added", "empty"}

    @classmethod
    def plant(cls):
        three = cls.devices[2]
        (three.files / "text").write_text("my own")
        (three.files / "added").write_text("added")
        (three.files / "empty").unlink()
        three.scan()
        wait_until("the others know of the changes", lambda: all(device.knows_all_of(three) for device in cls.devices[:2]))

    def test_the_kind_is_seen_by_the_local_changes(self):
        self.assertEqual({one["device"]: one["kind"] for one in self.over_the_wire[1]["folders"][0]["devices"]},
                         {one.id: kind for one, kind in zip(self.devices, ("send-receive", "send-receive", "receive-only"))})


class ObservedBehind(ObservedFaults):
    """A device that isn't connected to the others."""

    __test__ = True
    planted = {"text", "new", "empty", "folder/large"}

    @classmethod
    def plant(cls):
        one, two, three = cls.devices
        for other in (one, three):
            two.api("PATCH", f"config/devices/{other.id}", {"paused": True})
        wait_until("it isn't connected", lambda: not any(two.api("GET", "system/connections")["connections"][other.id]["connected"]
                                                         for other in (one, three)))
        (one.files / "text").write_text("another text")
        (one.files / "new").write_text("new")
        (one.files / "empty").unlink()
        (two.files / "folder" / "large").write_text("a change")
        one.scan()
        two.scan()
        wait_until("the third one has all", lambda: three.is_in_step_with(one))
        time.sleep(SECONDS_UNTIL_SAVED)

    def test_what_is_not_heard_of_is_counted(self):
        one, two, three = (device.id for device in self.devices)
        self.assertEqual({(count["device"], count["of"]): count["names"] for count in self.over_the_wire[1]["folders"][0]["live"]["not_heard_of"]},
                         {(two, one): 3, (two, three): 3, (one, two): 1, (three, two): 1})


class ObservedWentBack(Observing):
    """A device in whose place an older home is put."""

    __test__ = True

    def test_a_device_that_went_back_is_told(self):
        two, older = self.devices[1], self.room / "older"
        shutil.copytree(two.home, older)
        self.start()
        self.addCleanup(self.stop)
        (two.files / "later").write_text("later")
        two.scan()
        wait_until_in_step(*self.devices)
        status, told = self.observed()
        self.assertEqual((status, [one["over_the_wire"].get("went_back_from") for one in told["folders"][0]["devices"]]), (6, [None] * 3))
        two.stop()
        shutil.rmtree(two.home)
        shutil.copytree(older, two.home)
        two.start()
        wait_until("it has scanned", two.shows_up_to_date)
        ran = self.observe()
        self.assertIn(ran.returncode, (1, 2, 6))
        said = " ".join((ran.stdout + ran.stderr).split())
        self.assertIn("went back", said)
        self.assertIn("'syncthing serve --reset-deltas'", said)


class ObservedIgnored(Observing):
    """A name that a device ignores, and a folder that isn't shared with the observer everywhere."""

    __test__ = True

    def setUp(self):
        super().setUp()
        self.start()
        self.addCleanup(self.stop)

    def test_what_is_ignored_is_left_out_on_request(self):
        two = self.devices[1]
        two.api("POST", f"db/ignores?folder={FOLDER}", {"ignore": ["text", "folder"]})
        two.scan()
        ran = self.observe("--strict")
        self.assertEqual(ran.returncode, 2)
        self.assertIn("--leave-out ignored", ran.stderr)
        status, told = self.observed()
        folder = told["folders"][0]
        self.assertEqual((status, {one["name"] for one in folder["left_out"]}, folder["names"]), (6, {"text", "folder", "folder/large"}, 3))
        two.api("POST", f"db/ignores?folder={FOLDER}", {"ignore": []})

    def test_a_folder_that_is_not_shared_with_the_observer(self):
        two = self.devices[1]
        config = two.api("GET", f"config/folders/{FOLDER}")
        two.api("PATCH", f"config/folders/{FOLDER}", {"devices": [one for one in config["devices"] if one["deviceID"] != self.observer.id]})
        self.addCleanup(two.api, "PATCH", f"config/folders/{FOLDER}", {"devices": config["devices"]})
        time.sleep(SECONDS_UNTIL_SAVED)
        ran = self.observe("--strict")
        self.assertEqual((ran.returncode, ran.stdout), (2, ""))
        self.assertIn(f"{self.address(two)}: not connected: it doesn't share the folder with the observer", ran.stderr)
        status, told = self.observed()
        self.assertEqual((status, [(one["kind"], one["folder"]) for one in told["left_out"]]), (6, [("absent", FOLDER)]))
        self.assertNotIn("Unexpected folder", two.log.read_text())


if __name__ == "__main__":
    main()
