#!/usr/bin/env python3
"""Real Syncthing devices on loopback that come to know an observer while they run.

    auditor/test/observed_known.py
"""

import time
import xml.etree.ElementTree as xml

from exporting import main
from observed import Observing
from syncthing import FOLDER, wait_until, wait_until_in_step

# Syncthing saves its configuration five seconds after it was saved before.
SECONDS_TO_SAVE = 6


class ObservedLater(Observing):
    """A device that doesn't know the observer isn't disturbed by it, and tells it all once the observer is added there, by hand or by an introducer."""

    __test__ = True

    @classmethod
    def configure(cls):
        super().configure()
        for device in cls.devices:  # nobody knows the observer yet, and two of them take over what the first one knows
            path = device.home / "config.xml"
            tree = xml.parse(path)
            root = tree.getroot()
            for parent in (root, root.find("folder")):
                for one in parent.findall("device"):
                    if one.get("id") == cls.observer.id:
                        parent.remove(one)
            if device is not cls.devices[0]:
                for one in root.findall("device"):
                    if one.get("id") == cls.devices[0].id:
                        one.set("introducer", "true")
            device.write(tree, path)

    def knows_the_observer(self, device):
        """Whether a device shares the folder with the observer."""
        return self.observer.id in [one["deviceID"] for one in device.api("GET", f"config/folders/{FOLDER}")["devices"]]

    def is_saved(self, device):
        """Whether a device has saved that it knows the observer, for good: Syncthing saves its configuration again after five seconds at most."""
        path = device.home / "config.xml"
        return self.observer.id in path.read_text() and time.time() - path.stat().st_mtime > SECONDS_TO_SAVE

    def test_unknown_at_first_and_introduced(self):
        self.start()
        self.addCleanup(self.stop)
        wait_until_in_step(*self.devices)
        configured = [device.api("GET", "config") for device in self.devices]
        ran = self.observe()
        self.assertEqual((ran.returncode, ran.stdout), (2, ""))
        self.assertIn("no device could be looked at", ran.stderr)
        self.assertEqual(configured, [device.api("GET", "config") for device in self.devices])
        self.add(self.devices[0], introducer=True)  # the observer introduces nobody, whatever the device takes from it
        wait_until("the others were introduced to it", lambda: all(map(self.knows_the_observer, self.devices)))
        wait_until("all devices can be looked at", lambda: self.observe("--records").returncode == 6)
        wait_until("what was introduced is saved", lambda: all(map(self.is_saved, self.devices)))
        configured = [device.api("GET", "config") for device in self.devices]
        status, told = self.observed()
        self.assertEqual((status, told["left_out"], len(told["folders"][0]["devices"])), (6, [], 3))
        self.assertEqual(configured, [device.api("GET", "config") for device in self.devices])


if __name__ == "__main__":
    main()
