"""Real Syncthing devices on loopback: their homes, their processes, and what their REST API says."""

import copy
import itertools
import json
import os
import re
import signal
import socket
import subprocess
import time
import urllib.error
import urllib.request
import xml.etree.ElementTree as xml
from pathlib import Path

FOLDER = "docs"
VERSIONS = ".stversions"  # where old versions are by themselves
SECONDS_TO_WAIT = 300
PORTS = list(range(12000, 32000))
PORTS_OF_A_PROCESS = 16
OPTIONS = {"globalAnnounceEnabled": "false", "localAnnounceEnabled": "false", "relaysEnabled": "false",
           "natEnabled": "false", "crashReportingEnabled": "false", "urAccepted": "-1", "startBrowser": "false",
           "autoUpgradeIntervalH": "0", "reconnectionIntervalS": "5", "stunKeepaliveStartS": "0"}


def ports_of_this_process():
    """Ports of 127.0.0.1 that nothing listens on, below those that systems give out by themselves; each once. Another
    process of these tests begins elsewhere."""
    first = os.getpid() * PORTS_OF_A_PROCESS % len(PORTS)
    for port in PORTS[first:] + PORTS[:first]:
        try:
            socket.create_server(("127.0.0.1", port)).close()
        except OSError:
            continue
        yield port


free_ports = ports_of_this_process()


def programs():
    """The programs that devices run: $SYNCTHING, several of them with colons between, or the one on PATH."""
    return os.environ.get("SYNCTHING", "syncthing").split(":")


def version_of(program):
    """What a program says of its version."""
    return subprocess.run([program, "--version"], capture_output=True, text=True).stdout


# Devices take them by turns, so two programs make a mixed cluster.
programs_in_turn = itertools.cycle(programs())


def is_so(holds):
    """Whether something holds. Where Syncthing replaces a file, it isn't there for a moment, and nothing that reads it holds then."""
    try:
        return holds()
    except FileNotFoundError:
        return False


def wait_until(what, holds):
    """Waits until something holds, and fails if that takes too long."""
    end = time.monotonic() + SECONDS_TO_WAIT
    while not is_so(holds):
        if time.monotonic() > end:
            raise AssertionError(f"waited {SECONDS_TO_WAIT} seconds until {what}")
        time.sleep(0.5)


class Device:
    """A Syncthing device with its home, its folder and its process."""

    def __init__(self, room, name):
        self.home, self.files = room / name / "home", room / name / "files"
        self.data = self.home  # where its database is
        self.room = room
        self.api_port, self.listen_port = next(free_ports), next(free_ports)
        self.program = next(programs_in_turn)
        self.process = None
        self.peers = []
        self.log = room / f"{name}.log"
        self.files.mkdir(parents=True)
        (self.files / ".stfolder").mkdir()
        made = subprocess.run([self.program, "generate", f"--home={self.home}", "--no-default-folder"],
                              env=self.environment(), capture_output=True, text=True, check=True)
        self.id = re.search(r"(?:[A-Z2-7]{7}-){7}[A-Z2-7]{7}", made.stdout + made.stderr)[0]
        self.api_key = xml.parse(self.home / "config.xml").findtext("gui/apikey")

    def environment(self):
        """The process's environment: nothing of the user's home is touched, nothing is upgraded."""
        return {"PATH": os.environ["PATH"], "HOME": str(self.room), "STNOUPGRADE": "1", "GOMAXPROCS": "1"}

    def configure(self, devices, kind="sendreceive", password=""):
        """Writes the configuration: the folder shared with all these devices, everything on loopback. A password has
        it shared encrypted."""
        self.peers = [one for one in devices if one is not self]
        path = self.home / "config.xml"
        tree = xml.parse(path)
        root = tree.getroot()
        for old in root.findall("device") + root.findall("folder"):
            root.remove(old)
        folder = copy.deepcopy(root.find("defaults/folder"))
        folder.attrib.update(id=FOLDER, path=str(self.files), type=kind, fsWatcherEnabled="false", rescanIntervalS="0")
        for old in folder.findall("device"):
            folder.remove(old)
        root.append(folder)
        for one in devices:
            sharing = xml.SubElement(folder, "device", id=one.id)
            if password and one is not self:
                xml.SubElement(sharing, "encryptionPassword").text = password
            xml.SubElement(xml.SubElement(root, "device", id=one.id), "address").text = \
                f"tcp://127.0.0.1:{one.listen_port}"
        root.find("gui/address").text = f"127.0.0.1:{self.api_port}"
        options = root.find("options")
        for name, value in {"listenAddress": f"tcp://127.0.0.1:{self.listen_port}", **OPTIONS}.items():
            for old in options.findall(name):
                options.remove(old)
            xml.SubElement(options, name).text = value
        self.write(tree, path)

    def write(self, tree, path):
        """Writes the configuration with the time that it had: an audit tells one that is newer than the index."""
        times = path.stat()
        tree.write(path)
        os.utime(path, ns=(times.st_atime_ns, times.st_mtime_ns))

    def choose(self, **options):
        """Gives these options to the folder."""
        path = self.home / "config.xml"
        tree = xml.parse(path)
        folder = tree.getroot().find("folder")
        for name, value in options.items():
            for old in folder.findall(name):
                folder.remove(old)
            xml.SubElement(folder, name).text = value
        self.write(tree, path)

    def keep_versions(self, kind, place="", seconds=3600, **params):
        """Writes into the configuration how old versions are kept, and cleaned after so many seconds: in Syncthing's words, and nothing for not at all."""
        path = self.home / "config.xml"
        tree = xml.parse(path)
        versioning = tree.getroot().find("folder/versioning")
        versioning.clear()
        if kind:
            versioning.set("type", kind)
        for key, value in params.items():
            xml.SubElement(versioning, "param", key=key, val=value)
        for name, value in (("cleanupIntervalS", str(seconds)), ("fsPath", place), ("fsType", "basic")):
            xml.SubElement(versioning, name).text = value
        self.write(tree, path)

    def all_versions(self, place=VERSIONS):
        """The names of which old versions are in a directory, each with the path of one."""
        root = self.files / place
        return [(re.sub(r"~[0-9]{8}-[0-9]{6}", "", str(path.relative_to(root))), path) for path in sorted(root.rglob("*"), reverse=True) if path.is_file()]

    def old_versions(self, place=VERSIONS):
        """The path of the first old version of each name in a directory."""
        return dict(self.all_versions(place))

    def start(self):
        """Starts the process and waits for its API."""
        with self.log.open("ab") as log:
            self.process = subprocess.Popen([self.program, "serve", f"--config={self.home}", f"--data={self.data}", "--no-browser",
                                             "--no-restart"], env=self.environment(), stdout=log, stderr=log)
        wait_until(f"{self.home} answers", self.answers)

    def answers(self):
        """Whether the API answers."""
        if self.process.poll() is not None:
            raise AssertionError(f"Syncthing ended by itself: {self.log.read_text()}")
        try:
            return self.api("GET", "system/ping") == {"ping": "pong"}
        except (urllib.error.URLError, ConnectionError):
            return False

    def stop(self):
        """Ends the process that was started here, if it still runs."""
        if self.process is None:
            return
        if self.process.poll() is None:
            self.process.send_signal(signal.SIGTERM)
        try:
            self.process.wait(SECONDS_TO_WAIT)
        finally:
            if self.process.poll() is None:
                self.process.kill()
            self.process = None

    def api(self, method, path, body=None):
        """What the REST API answers, to this body as JSON where there is one."""
        asked = urllib.request.Request(f"http://127.0.0.1:{self.api_port}/rest/{path}", method=method,
                                       data=None if body is None else json.dumps(body).encode(), headers={"X-API-Key": self.api_key})
        with urllib.request.urlopen(asked, timeout=SECONDS_TO_WAIT) as answer:
            text = answer.read()
        return json.loads(text) if text else None

    def scan(self):
        """Scans the folder, and waits until that is done."""
        self.api("POST", f"db/scan?folder={FOLDER}")

    def shows_up_to_date(self):
        """Whether Syncthing's own page shows 'Up to Date' for the folder: it is idle and needs nothing."""
        status = self.api("GET", f"db/status?folder={FOLDER}")
        return status["state"] == "idle" and not status["needTotalItems"] and not status["errors"]

    def is_in_step_with(self, other):
        """Whether this device is idle, needs nothing, and takes the other to be complete."""
        if not self.shows_up_to_date():
            return False
        completion = self.api("GET", f"db/completion?folder={FOLDER}&device={other.id}")
        connection = self.api("GET", "system/connections")["connections"][other.id]
        return connection["connected"] and completion["completion"] == 100 and not completion["needDeletes"]

    def knows_all_of(self, other):
        """Whether this device is connected to the other and has heard of all that changed there."""
        completion = self.api("GET", f"db/completion?folder={FOLDER}&device={other.id}")
        connection = self.api("GET", "system/connections")["connections"][other.id]
        return connection["connected"] and completion["sequence"] == other.api(
            "GET", f"db/status?folder={FOLDER}")["sequence"]


def wait_until_in_step(*devices):
    """Waits until all devices say that they are in step with those that they share with, and hold the same names."""
    def names(device):
        return sorted(path.relative_to(device.files) for path in device.files.rglob("*"))

    def are_in_step():
        return (all(names(device) == names(devices[0]) for device in devices)
                and all(one.is_in_step_with(other) for one in devices for other in one.peers if other in devices))
    wait_until("all devices are in step", are_in_step)


def files_of(directory: Path):
    """The bytes and times of all files below a directory."""
    return {path: (path.read_bytes(), path.stat().st_mtime_ns) for path in sorted(directory.rglob("*"))
            if path.is_file()}
