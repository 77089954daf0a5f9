#!/usr/bin/env python3
"""Looks at real devices where another program listens at the address that a home has for Syncthing: it gets no API key.

    auditor/test/strangers.py
"""

import os
import subprocess
import sys
import tempfile
import unittest
import xml.etree.ElementTree as xml
from contextlib import contextmanager

from exporting import Exporting, main, run
from syncthing import free_ports

NOBODY = 65534
# Answers all that is asked of it, as a user, and writes what it was asked.
LISTENER = """
import os, socket, sys
os.setuid(int(sys.argv[2]))
server = socket.create_server(("127.0.0.1", int(sys.argv[1])))
print("listens", flush=True)
while True:
    made = server.accept()[0]
    try:
        print(made.recv(65536).decode(), end="", file=sys.stderr, flush=True)
        made.sendall(b"HTTP/1.1 200 OK\\r\\nContent-Length: 0\\r\\nConnection: close\\r\\n\\r\\n")
    except OSError:
        pass
    made.close()
"""


@contextmanager
def stranger(port, user=os.getuid()):
    """Has another program listen at a port; gives what it was asked so far."""
    with tempfile.TemporaryFile("w+") as asked:
        process = subprocess.Popen([sys.executable, "-c", LISTENER, str(port), str(user)], stdout=subprocess.PIPE, stderr=asked, text=True)
        try:
            assert process.stdout.readline() == "listens\n"
            yield lambda: (asked.seek(0), asked.read())[1]
        finally:
            process.kill()
            process.communicate()


class Strangers(Exporting):
    """Two devices, at whose addresses other programs listen."""

    def begin(self, *words):
        """Makes a first look at the first device."""
        return run([self.program, "part", "--begin", "--home", self.one.home, "-o", self.room / "one.begin", *words])

    def test_a_stopped_device(self):
        """Nothing of it is asked, with an index beside its configuration and without. A scan is refused."""
        index = self.one.home / "index-v0.14.0.db"
        with stranger(self.one.api_port) as asked:
            look, scan, first = self.begin(), self.begin("--rescan"), run([self.program, "run", self.one.home, self.two.home, "--rescan", "--syncaudit", self.auditor])
            index.rename(self.room / "away")
            try:
                without = self.begin()
            finally:
                (self.room / "away").rename(index)
            self.assertEqual(asked(), "")
        self.assertEqual(look.returncode, 0, look.stderr)
        self.assertIn("the API key isn't sent to 127.0.0.1:", look.stderr)
        for one in (scan, first):
            self.assertEqual((one.returncode, one.stdout), (2, ""))
            self.assertIn(f"refused: no Syncthing runs on {self.one.home}", one.stderr)
        self.assertEqual((without.returncode, without.stdout), (2, ""))
        self.assertIn("Syncthing can't be asked where its database is", without.stderr)
        self.assertIn("isn't seen to have another index open", without.stderr)

    @unittest.skipUnless(os.getuid() == 0, "only root runs a program as another user")
    def test_another_users_program(self):
        """It gets no key either where Syncthing runs, as when that was given another address and not started anew."""
        path = self.one.home / "config.xml"
        before = path.read_bytes()
        port = next(free_ports)
        self.one.start()
        try:
            tree = xml.parse(path)
            tree.getroot().find("gui/address").text = f"127.0.0.1:{port}"
            self.one.write(tree, path)
            with stranger(port, NOBODY) as asked:
                look, scan = self.begin(), self.begin("--rescan")
                self.assertEqual(asked(), "")
        finally:
            path.write_bytes(before)
            self.one.stop()
        self.assertEqual(look.returncode, 0, look.stderr)
        self.assertEqual((scan.returncode, scan.stdout), (2, ""))
        self.assertIn(f"a program of user {NOBODY} listens there, and the home is of user 0", scan.stderr)


if __name__ == "__main__":
    main()
