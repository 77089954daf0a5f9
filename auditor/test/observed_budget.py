#!/usr/bin/env python3
"""Real Syncthing devices on loopback at which an observer looks again and again, and reads so many bytes each time.

    auditor/test/observed_budget.py
"""

import json
import os
import re
import signal
import subprocess

from exporting import main, run
from observed import Observing
from syncthing import FOLDER, SECONDS_TO_WAIT, wait_until_in_step

SIZE = 300_000


class ObservedBudget(Observing):
    """Each look reads some files, and rot is found once its file has its turn. From then on that is read each time."""

    __test__ = True
    names = ("one", "two")

    def setUp(self):
        super().setUp()
        for at in range(4):
            (self.devices[0].files / f"file {at}").write_bytes(os.urandom(SIZE))
        self.start()
        self.addCleanup(self.stop)
        wait_until_in_step(*self.devices)

    def look(self, *words):
        """What a look answers, which reads three files of both devices or so."""
        return self.observed("--budget", "1.5MB", "--history", self.room / "history", *words)

    def test_rot_is_found_in_its_turn(self):
        path = self.devices[1].files / "file 3"
        good, about = path.read_bytes(), path.stat()
        path.write_bytes(b"rot" + good[3:])
        os.utime(path, ns=(about.st_atime_ns, about.st_mtime_ns))
        found, waiting = [], []
        for _ in range(4):
            status, told = self.look()
            found.append((status, [one["name"] for one in told["folders"][0]["files"]]))
            waiting.append([(one["files"], one["never_files"], "oldest" in one) for one in told["since"].get("not_read_yet", [])])
            self.assertEqual([one["over_the_wire"]["files_not_read"] for one in told["folders"][0]["devices"]],
                             [sum(count for count, *_ in waiting[-1][at:at + 1]) for at in range(2)])
        self.assertEqual(found, [(6, []), (1, ["file 3"]), (1, ["file 3"]), (1, ["file 3"])])
        self.assertEqual(waiting[0], [(3, 3, False)] * 2)
        self.assertTrue(all(never == 0 and is_old for count, never, is_old in waiting[1]), waiting)
        path.write_bytes(good)
        os.utime(path, ns=(about.st_atime_ns, about.st_mtime_ns))
        status, told = self.look()
        self.assertEqual((status, [one["name"] for one in told["since"]["mended"]["first"]]), (6, ["file 3"]))
        ran = self.observe("--budget", "1.5MB", "--history", self.room / "history")
        self.assertRegex(ran.stdout, rf"(?m)^not read this time: {FOLDER} on {self.devices[0].id[:7]}: [0-9]+ files? \(.*\); the one that waits longest was read 20")
        ran = self.observe("--budget", "1GB", "--history", self.room / "history", "--lines")
        self.assertNotIn("\nnot read: ", ran.stdout)

    def test_rot_is_not_forgotten(self):
        """What was found while one device was off is told by each look, also where there are too few bytes to read it on both."""
        path = self.devices[1].files / "file 3"
        good, about = path.read_bytes(), path.stat()
        path.write_bytes(b"rot" + good[3:])
        os.utime(path, ns=(about.st_atime_ns, about.st_mtime_ns))
        self.devices[0].stop()
        ran = self.observe("--json", "--budget", "1.5MB", "--history", self.room / "history", "--leave-out", "absent")
        self.assertEqual((ran.returncode, [one["name"] for one in json.loads(ran.stdout)["folders"][0]["files"]]), (1, ["file 3"]), ran.stderr)
        self.devices[0].start()
        wait_until_in_step(*self.devices)
        read = []
        for budget in ("0.7MB", "0.7MB", "0.7MB", "0.4MB", "0.4MB"):
            status, told = self.observed("--budget", budget, "--history", self.room / "history")
            folder, unread = told["folders"][0], told["since"]["not_read_again"]["first"]
            found = [one["name"] for one in folder["files"]] + [one["name"] for one in unread]
            self.assertEqual((status, told["verdict"], folder["verdict"], folder["names_wrong"], found), (1, "not-in-step", "not-in-step", 1, ["file 3"]))
            self.assertTrue(all(one["device"] == self.devices[1].id and one["last"] >= one["first"] for one in unread), unread)
            read.append(not unread)
        self.assertEqual(read[:3], [True, False, True])
        ran = self.observe("--budget", "0.4MB", "--history", self.room / "history")
        if "isn't read again" in ran.stdout:
            self.assertRegex(ran.stdout, "(?m)^  'file 3' in .*: found with other bytes on 20.*, not read again since [(]StoreDiffers[)]$")
        self.assertEqual(ran.returncode, 1, ran.stdout)
        path.write_bytes(good)
        os.utime(path, ns=(about.st_atime_ns, about.st_mtime_ns))
        status, told = self.observed("--budget", "1GB", "--history", self.room / "history")
        self.assertEqual((status, [one["name"] for one in told["since"]["mended"]["first"]]), (6, ["file 3"]))

    def test_it_goes_on(self):
        """Each look answers. A device that isn't there for a while is left out of some, which is told once, and so is that it is back."""
        log = self.room / "log of observe"
        told_to = log.open("w")
        self.addCleanup(told_to.close)
        process = subprocess.Popen([self.program, "observe", "--home", self.room / "observer", "--folder", FOLDER, "--syncaudit", self.auditor, "--still", "0",
                                    "--json", "--every", "2s", "--budget", "1MB", *map(self.address, self.devices)],
                                   stdout=subprocess.PIPE, stderr=told_to, text=True)
        self.addCleanup(process.communicate)
        self.addCleanup(process.kill)
        for _ in range(2):
            told = json.loads(process.stdout.readline())
            self.assertEqual((told["verdict"], told["left_out"]), ("in-step-as-far-as-audited", []))
        self.devices[1].stop()
        while not told["left_out"]:
            told = json.loads(process.stdout.readline())
        self.assertEqual({one["kind"] for one in told["left_out"]}, {"absent"})
        while "it failed so at 3 looks since " not in told["left_out"][0]["why"]:
            told = json.loads(process.stdout.readline())
        self.devices[1].start()
        while told["left_out"]:
            told = json.loads(process.stdout.readline())
        said = [line for line in log.read_text().splitlines() if self.address(self.devices[1]) in line]
        *failed, back = said
        looks = int(re.search(r"it is back, after it failed at ([0-9]+) looks since 20", back)[1])
        self.assertTrue(0 < len(failed) < looks, said)
        self.assertTrue(all(re.match(r"syncthing-audit: \S+: (not connected|first look|second look): ", line) for line in failed), said)
        self.assertTrue((self.room / "observer" / "history" / "CURRENT").exists())
        process.send_signal(signal.SIGTERM)
        process.wait(SECONDS_TO_WAIT)
        ran = run([self.program, "observe", "--home", self.room / "observer", "--syncaudit", self.auditor, "--still", "0", "--records"])
        self.assertEqual(ran.returncode, 6, ran.stderr)


if __name__ == "__main__":
    main()
