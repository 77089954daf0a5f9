#!/usr/bin/env python3
"""Documents that GNU parallel has answered over ssh, by the very command that auditor/README.md shows. Homes and indexes are
written by Syncthing's own packages, and no device runs.

    auditor/test/spread.py

The machines 'one' and 'two' are this one, over loopback, where sshd and rsync are installed; without them the jobs run here,
without ssh.
"""

import os
import pwd
import re
import shutil
import subprocess
import tempfile
import unittest
from pathlib import Path

from exporting import PROGRAM, auditor, built, is_over, main, run
from large_folders import rot
from syncthing import SECONDS_TO_WAIT, free_ports, wait_until

README = Path(__file__).resolve().parents[1] / "README.md"
SSHD = shutil.which("sshd", path=f"{os.environ['PATH']}:/usr/sbin")
MACHINES = "--sshlogin one,two"


class Spread(unittest.TestCase):
    """Two devices with more names than one document has."""

    @classmethod
    def setUpClass(cls):
        if is_over():
            raise unittest.SkipTest("the time is over")
        if not shutil.which("parallel"):
            raise unittest.SkipTest("GNU parallel isn't installed (Debian's package parallel), so nothing was spread over machines")
        room = tempfile.TemporaryDirectory(prefix="syncthing-audit-test-")
        cls.addClassCleanup(room.cleanup)
        cls.room = Path(room.name)
        programs = built(cls.room)
        cls.program = programs / PROGRAM
        run([programs / "sample", "--files", "5000", "--bytes", "100", cls.room], check=True)
        rot(cls.room / "device2" / "files" / "00049" / "99.bin", 99)
        cls.parts = [cls.room / f"{number}.part" for number in (1, 2)]
        for number, part in enumerate(cls.parts, 1):
            run([cls.program, "part", "--home", cls.room / f"device{number}" / "home", "-o", part], check=True)
        tools = cls.room / "tools"
        tools.mkdir()
        (tools / "syncaudit").symlink_to(shutil.which(auditor()))
        (tools / PROGRAM).symlink_to(shutil.which(cls.program))
        cls.environment = {**os.environ, "PATH": f"{tools}:{os.environ['PATH']}", "HOME": str(cls.room)}

    def start_sshd(self):
        """Starts an sshd of this case's own on loopback, and gives the configuration by which ssh reaches it as 'one' and as
        'two'; nothing where that can't be."""
        room = Path(tempfile.mkdtemp(dir=self.room))
        if not (SSHD and shutil.which("ssh-keygen") and shutil.which("rsync")):
            return None
        for name in ("host", "user"):
            run(["ssh-keygen", "-q", "-t", "ed25519", "-N", "", "-f", room / name], check=True)
        port, user = next(free_ports), pwd.getpwuid(os.getuid()).pw_name
        if os.getuid() == 0:
            Path("/run/sshd").mkdir(exist_ok=True)
        (room / "sshd").write_text(f"ListenAddress 127.0.0.1\nPort {port}\nHostKey {room}/host\nAuthorizedKeysFile {room}/user.pub\nStrictModes no\n"
                                   f"UsePAM no\nPidFile none\nPermitRootLogin prohibit-password\nSetEnv PATH={self.environment['PATH']}\n")
        (room / "ssh").write_text(f"Host one two\nHostName 127.0.0.1\nPort {port}\nUser {user}\nIdentityFile {room}/user\nIdentitiesOnly yes\n"
                                  f"StrictHostKeyChecking no\nUserKnownHostsFile {room}/known\nBatchMode yes\nLogLevel ERROR\n")
        with (room / "log").open("wb") as log:
            process = subprocess.Popen([SSHD, "-D", "-e", "-f", room / "sshd"], stdout=log, stderr=log)
        self.addCleanup(process.wait)
        self.addCleanup(process.terminate)
        wait_until("sshd listens or has ended", lambda: process.poll() is not None or "listening" in (room / "log").read_text())
        self.log = room / "log"
        reached = process.poll() is None and run(["ssh", "-F", room / "ssh", "two", "command -v syncaudit rsync"])
        return room / "ssh" if reached and reached.returncode == 0 else None

    def test_the_command_of_the_page(self):
        """The sum of the answers is the answer of 'check', and nothing of the jobs stays."""
        alone = run([self.program, "check", *self.parts, "--lines", "--syncaudit", auditor()])
        self.assertEqual((alone.returncode, len(alone.stdout.splitlines())), (1, 8))
        block, = re.findall(r"```\n(syncthing-audit export .*?)```", README.read_text(), re.DOTALL)
        self.assertIn(MACHINES, block)
        configuration = self.start_sshd()
        environment = dict(self.environment)
        if configuration:
            environment["PARALLEL_SSH"] = f"ssh -F {configuration}"
        else:
            print("NOTE: sshd or rsync isn't to be had here: the jobs ran without ssh", flush=True)
            block = block.replace(f"{MACHINES} --workdir ...", "--sshlogin :")
        script = block.replace("syncthing-audit sum documents", "syncthing-audit sum documents --lines")
        ran = subprocess.run(["bash", "-c", script], cwd=self.room, env=environment, capture_output=True, text=True, timeout=SECONDS_TO_WAIT)
        self.assertEqual((ran.returncode, ran.stdout), (1, alone.stdout), ran.stderr)
        documents = self.room / "documents"
        if configuration:
            self.assertGreater(self.log.read_text().count("Accepted publickey"), 2)
        self.assertEqual({path.suffix for path in documents.iterdir()}, {".json", ".jsonl", ".reply"})
        self.assertGreater(len(list(documents.glob("cut-*.reply"))), 1)
        left = [path for path in (self.room, Path.home()) for path in path.glob(".parallel/tmp/*-cut-*")]
        self.assertEqual(left, [])


if __name__ == "__main__":
    main()
