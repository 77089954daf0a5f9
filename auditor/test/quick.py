"""Devices for worlds and storms: they connect and try again sooner than Syncthing's usual, and one can wait until they are at rest, in step
or not."""

import hashlib
import os
import shutil
import stat
import time
from pathlib import Path
from urllib.parse import quote

import syncthing
from syncthing import FOLDER, VERSIONS, Device

syncthing.OPTIONS = {**syncthing.OPTIONS, "reconnectionIntervalS": "1", "progressUpdateIntervalS": "-1"}
MARKER = ".sync-conflict-"
BLOCK = 128 << 10
SECONDS_OF_REST = 3
SECONDS_OUT_OF_STEP = 11  # a pull that fails is tried again after some seconds
SECONDS_UNTIL_REST = 100


class Quick(Device):
    """A device with a name."""

    def __init__(self, room, name):
        super().__init__(room, name)
        self.name = name

    def set_up(self, devices, kind, versioning="", **options):
        """Writes the configuration."""
        self.configure(devices, kind=kind)
        self.choose(pullerPauseS="2", **options)
        self.keep_versions(versioning, keep="99")

    def scan_below(self, name):
        """Scans a name, and waits until that is done; the first scan of the folder is over then, too."""
        self.api("POST", f"db/scan?folder={FOLDER}&sub={quote(name)}")

    def condition(self, running):
        """What tells whether anything goes on."""
        status = self.api("GET", f"db/status?folder={FOLDER}")
        connections = self.api("GET", "system/connections")["connections"]
        others = [other for other in running if other in self.peers]
        heard = {other.name: self.api("GET", f"db/completion?folder={FOLDER}&device={other.id}")["sequence"] for other in others}
        return {"state": status["state"], "sequence": status["sequence"], "needs": status["needTotalItems"], "errors": status["errors"],
                "heard": heard, "connected": all(connections[other.id]["connected"] for other in others)}


def start(devices):
    """Starts devices, and waits until each has scanned."""
    for device in devices:
        device.start()
    for device in devices:
        device.scan_below(".no-such-name")


def stop(devices):
    """Stops devices."""
    for device in devices:
        device.stop()


def are_idle(conditions):
    """Whether all are idle and connected."""
    return all(one["state"] == "idle" and one["connected"] for one in conditions.values())


def are_in_step(conditions):
    """Whether nobody needs anything, and all have heard all of each other. Some never do: one who only receives may tell a change anew that
    is the same to the others."""
    return all(not one["needs"] and all(conditions[name]["sequence"] == heard for name, heard in one["heard"].items()) for one in conditions.values())


def rest(devices):
    """Waits until nothing changes any more, and says whether that came."""
    end, last, since = time.monotonic() + SECONDS_UNTIL_REST, None, time.monotonic()
    while time.monotonic() < end:
        now = {device.name: device.condition(devices) for device in devices}
        if now != last or not are_idle(now):
            last, since = now, time.monotonic()
        elif time.monotonic() - since > (SECONDS_OF_REST if are_in_step(now) else SECONDS_OUT_OF_STEP):
            return True
        time.sleep(0.4)
    return False


def come_to_an_end(devices, order=None):
    """Has devices come to an end: all at once, or one after another in this order. They scan once more, since a scan may change something.
    Says whether they came to rest."""
    if order is None:
        start(devices)
    else:
        for count, device in enumerate(order, 1):
            start([device])
            if count > 1:
                rest(order[:count])
    rest(devices)
    for device in devices:
        device.scan()
    rested = rest(devices)
    stop(devices)
    return rested


def content_of(data):
    """A file's bytes as a part tells them: their count and the hash of the hashes of their blocks, which are the smallest that there are."""
    blocks = [data[place:place + BLOCK] for place in range(0, len(data), BLOCK)] or [b""]
    return [len(data), hashlib.sha256(b"".join(hashlib.sha256(block).digest() for block in blocks)).hexdigest()]


def node_of(path):
    """What stands at a path: its kind, and its bytes or its target."""
    mode = path.lstat().st_mode
    if stat.S_ISLNK(mode):
        return ["symlink", os.readlink(path)]
    if stat.S_ISDIR(mode):
        return ["directory"]
    return ["file", *content_of(path.read_bytes())]


def node_words(path):
    """The same in words, where files have texts."""
    kind, *more = node_of(path)
    return f"file {path.read_text()}" if kind == "file" else " ".join([kind, *more])


def tree_of(root: Path):
    """What stands below a folder's directory, but for what Syncthing has there for itself."""
    made = {}
    for path in sorted(root.rglob("*")):
        name = str(path.relative_to(root))
        if not name.startswith((".stfolder", VERSIONS)) and not path.name.startswith(".syncthing."):
            made[name] = node_of(path)
    return made


def remove(path: Path):
    """Takes away what stands at a path, whatever it is."""
    if path.is_symlink() or path.is_file():
        path.unlink()
    elif path.is_dir():
        for one in [path, *path.rglob("*")]:
            if one.is_dir() and not one.is_symlink():
                one.chmod(0o755)
        shutil.rmtree(path)
