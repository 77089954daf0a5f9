#!/usr/bin/env python3
"""By hand: three real Syncthing devices in step, of which nobody touches a file, write an old file over a newer one.

    auditor/test/slow_message.py

It is the shorter run of docs/argument/README.md, and takes a minute. Anna's messages to Cleo's device go through a slow line,
which keeps back what the story wants to be late. It installs nothing, and ends all that it starts. Where the run goes
otherwise it says what differs, and has status 1.
"""

import os
import socket
import sys
import tempfile
import threading
import xml.etree.ElementTree as xml
from pathlib import Path

from syncthing import FOLDER, Device, free_ports, wait_until

TWO_LINES, ONE_LINE = b"one\ntwo\n", b"one\n"
DAY = 86400
MONDAY = 1641200400
TUESDAY, WEDNESDAY, THURSDAY = MONDAY + DAY, MONDAY + 2 * DAY, MONDAY + 3 * DAY
NOBODY = "tcp://127.0.0.1:9"


class SlowLine:
    """A line to a device, which can keep back what goes there; what comes from there always passes."""

    def __init__(self, to_port):
        self.port = next(free_ports)
        self.to_port = to_port
        self.waiting = b""
        self.taken = self.passed = 0
        self.most = None
        self.changed = threading.Condition()
        self.server = socket.create_server(("127.0.0.1", self.port))
        self.run(self.serve)

    def run(self, what, *given):
        """Runs something beside, to the end of this process."""
        threading.Thread(target=self.until_closed, args=(what, *given), daemon=True).start()

    def until_closed(self, what, *given):
        """Runs something until a connection ends."""
        try:
            what(*given)
        except OSError:
            pass

    def serve(self):
        """Joins each connection with one to the device, if that is there."""
        while True:
            near, _ = self.server.accept()
            try:
                far = socket.create_connection(("127.0.0.1", self.to_port))
            except OSError:
                near.close()
                continue
            self.run(self.come_back, far, near)
            self.run(self.take, near)
            self.run(self.let_pass, far)

    def come_back(self, far, near):
        """What comes from the device."""
        while data := far.recv(65536):
            near.sendall(data)

    def take(self, near):
        """What is to go to the device."""
        while data := near.recv(65536):
            with self.changed:
                self.waiting += data
                self.taken += len(data)
                self.changed.notify_all()

    def let_pass(self, far):
        """What goes to the device, up to so many bytes in all."""
        while True:
            with self.changed:
                self.changed.wait_for(lambda: self.waiting and (self.most is None or self.passed < self.most))
                count = len(self.waiting) if self.most is None else self.most - self.passed
                data, self.waiting = self.waiting[:count], self.waiting[count:]
                self.passed += len(data)
            far.sendall(data)

    def pass_up_to(self, most):
        """Lets so many bytes pass in all."""
        with self.changed:
            self.most = most
            self.changed.notify_all()


def dial(device, other, address):
    """Has a device look for the other one at this address alone."""
    path = device.home / "config.xml"
    tree = xml.parse(path)
    for one in tree.getroot().findall("device"):
        if one.get("id") == other.id:
            one.find("address").text = address
    tree.write(path)


def save(device, name, data, seconds):
    """Someone saves a file with this date; the device scans it, if it runs."""
    path = device.files / name
    path.write_bytes(data)
    os.utime(path, (seconds, seconds))
    if device.process:
        device.scan()


def has(device, data):
    """Whether the device's list has these bytes, and the device needs nothing."""
    path = device.files / "list"
    return path.exists() and path.read_bytes() == data and device.shows_up_to_date()


def version(device):
    """The version of the device's own record of the list."""
    return device.api("GET", f"db/file?folder={FOLDER}&file=list")["local"]["version"]


def is_still(line):
    """What tells whether nothing new was taken by the line since this was asked before."""
    seen = [-1]

    def same_as_before():
        before, seen[0] = seen[0], line.taken
        return before == line.taken > line.passed
    return same_as_before


def tell_story(anna, ben, cleo, line):
    """Makes the run, up to the slow message; answers how many bytes go with it."""
    save(anna, "list", TWO_LINES, WEDNESDAY)
    save(anna, "spare", ONE_LINE, WEDNESDAY)
    save(ben, "list", TWO_LINES, TUESDAY)
    cleo.start()
    anna.start()
    wait_until("Cleo's device has both files", lambda: has(cleo, TWO_LINES) and (cleo.files / "spare").exists())
    line.pass_up_to(line.passed)
    save(cleo, "list", ONE_LINE, THURSDAY)
    wait_until("Anna's device has the mistake", lambda: has(anna, ONE_LINE))
    wait_until("it has said so", is_still(line))
    with_message = line.taken
    save(anna, "list", TWO_LINES, MONDAY)
    save(cleo, "list", TWO_LINES, MONDAY)
    wait_until("all have two lines", lambda: has(anna, TWO_LINES) and has(cleo, TWO_LINES))
    return with_message


def main():
    """Makes the run, and tells how it went."""
    with tempfile.TemporaryDirectory() as room:
        anna, ben, cleo = devices = [Device(Path(room), name) for name in ("anna", "ben", "cleo")]
        line = SlowLine(cleo.listen_port)
        for device in devices:
            device.configure(devices)
        dial(anna, cleo, f"tcp://127.0.0.1:{line.port}")
        dial(cleo, anna, NOBODY)
        try:
            with_message = tell_story(anna, ben, cleo, line)
            print("Anna's, Ben's and Cleo's devices have two lines each. Nobody touches a file from here on.")
            ben.start()
            wait_until("Cleo's device takes Ben's record over", lambda: version(cleo) == version(ben))
            print("Ben's device has joined. Cleo's has taken its record over, at the version", *version(cleo))
            line.pass_up_to(with_message)
            wait_until("the list has one line everywhere", lambda: all(has(device, ONE_LINE) for device in devices))
            line.pass_up_to(None)
            wait_until("all is said", lambda: all(has(device, ONE_LINE) for device in devices))
            copies = [sorted(path.name for path in device.files.glob("list.sync-conflict-*")) for device in devices]
            print("The slow message has arrived. Each list has one line. The two lines stand in:", copies)
        finally:
            for device in devices:
                device.stop()


if __name__ == "__main__":
    try:
        main()
    except AssertionError as other:
        sys.exit(f"it went otherwise: {other}")
