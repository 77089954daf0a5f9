"""Two looks at real Syncthing devices on loopback that go on running."""

import xml.etree.ElementTree as xml
from contextlib import contextmanager

from exporting import Exporting, run, without_firmness
from large_folders import rot as flip_byte
from syncthing import wait_until, wait_until_in_step


@contextmanager
def rot(path, place):
    """Changes a byte of a file for a while, not its size or time."""
    undo = flip_byte(path, place)
    try:
        yield
    finally:
        undo()


class Live(Exporting):
    """Devices in step that run. A case leaves them so."""

    options = {}
    watches = False

    @classmethod
    def setUpClass(cls):
        super().setUpClass()
        for device in cls.devices:
            cls.change_configuration(device)
        cls.start()
        wait_until_in_step(*cls.devices)

    @classmethod
    def change_configuration(cls, device):
        """Sets options of a stopped device, and has it watch its folder or not."""
        tree = xml.parse(device.home / "config.xml")
        for name, value in cls.options.items():
            tree.getroot().find(f"options/{name}").text = value
        folder = tree.getroot().find("folder")
        folder.set("fsWatcherEnabled", str(cls.watches).lower())
        folder.set("fsWatcherDelayS", "1")
        tree.write(device.home / "config.xml")

    def begin(self, *devices):
        """Makes the first look at each of these devices, or at all."""
        for device in devices or self.devices:
            ran = run([self.program, "part", "--begin", "--home", device.home, "-o", self.path(device, "begin"), *self.words])
            self.assertEqual(ran.returncode, 0, ran.stderr)
            self.path(device, "token").write_text(ran.stdout)

    def end(self, *devices):
        """Makes the second look at each of these devices, or at all, with the tokens of all."""
        for device in devices or self.devices:
            ran = self.try_end(device, *self.devices)
            self.assertEqual(ran.returncode, 0, ran.stderr)

    def try_end(self, device, *others, words=()):
        """What comes of a second look with the tokens of these devices."""
        tokens = [word for one in others for word in ("--tokens", self.path(one, "token"))]
        return run([self.program, "part", "--end", "--home", device.home, *tokens, "-o", self.path(device, "end"), *self.words, *words])

    words = ()

    @property
    def three(self):
        """The third device, where there are three."""
        return self.devices[2]

    @contextmanager
    def apart(self, one, two):
        """Two devices aren't connected for a while, and then are in step again."""
        one.api("POST", f"system/pause?device={two.id}")
        try:
            wait_until("the two aren't connected", lambda: not two.api("GET", "system/connections")["connections"][one.id]["connected"])
            yield
        finally:
            self.reconnect(one, two)

    def reconnect(self, one, two):
        """Two devices are connected again, and all in step."""
        one.api("POST", f"system/resume?device={two.id}")
        wait_until_in_step(*self.devices)

    def path(self, device, kind):
        """Where something of a device is written."""
        return self.room / f"{device.home.parent.name}.{kind}"

    def looks(self):
        """The parts of both looks at all devices."""
        return [self.path(device, kind) for device in self.devices for kind in ("begin", "end")]

    def told(self, *words):
        """The lines that an audit of both looks writes, but for how long they were apart."""
        ran = self.check_parts(self.looks(), *words)
        lines = self.without_times(ran)
        self.assertTrue(lines, ran.stderr)
        return ran.returncode, lines

    @staticmethod
    def without_times(ran):
        """The lines that an audit wrote, but for how long the looks were apart, and for those on firmness."""
        return [line.split(" s, ")[-1] if line.startswith("still: ") else line for line in without_firmness(ran.stdout.splitlines())]

    def look(self, between=lambda: None):
        """Looks twice at all devices, and gives the status and the lines."""
        self.begin()
        between()
        self.end()
        return self.told()

    def moving(self, lines):
        """The names that were in motion."""
        return {line.split(" ")[3] for line in lines if line.startswith("in motion: ") and " on " in line}
