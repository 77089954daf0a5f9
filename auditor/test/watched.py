#!/usr/bin/env python3
"""syncthing-audit watch: the command of its service as it stands in the unit, with stand-ins for ssh and sendmail. Homes and indexes are written by
Syncthing's own packages, and no device runs.

    auditor/test/watched.py
"""

import fcntl
import json
import os
import re
import shutil
import subprocess
import tempfile
import time
import unittest
from pathlib import Path

from exporting import IN_STEP, PROGRAM, auditor, built, is_over, main, run
from large_folders import rot

CONTRIB = Path(__file__).resolve().parents[1] / "nightly"
UNIT = CONTRIB / "systemd" / "syncthing-audit-watch.service"
SSH = '''#!/bin/sh
echo "ssh: connect to host off: No route to host" >&2
exit 255
'''
SENDMAIL = '''#!/bin/sh
cat >> "$(dirname "$0")/mails"
'''


class Nights(unittest.TestCase):
    """Two devices in step; each case has a user's home of its own, and nights in it."""

    FILES = 20

    @classmethod
    def setUpClass(cls):
        if is_over():
            raise unittest.SkipTest("the time is over")
        room = tempfile.TemporaryDirectory(prefix="syncthing-audit-test-")
        cls.addClassCleanup(room.cleanup)
        cls.room = Path(room.name)
        cls.programs = built(cls.room)
        run([cls.programs / "sample", "--files", str(cls.FILES), "--bytes", "100", cls.room / "made"], check=True)
        cls.homes = [cls.room / "made" / f"device{number}" / "home" for number in (1, 2)]

    def setUp(self):
        if is_over():
            self.skipTest("the time is over")
        self.user = Path(tempfile.mkdtemp(dir=self.room))
        self.tools, self.metrics = self.user / ".local/bin", self.user / "metrics.prom"
        self.parts = self.user / ".local/state/syncthing-audit"
        self.tools.mkdir(parents=True)
        self.parts.mkdir(parents=True)
        for name, text in (("ssh", SSH), ("sendmail", SENDMAIL)):
            (self.tools / name).write_text(text)
            (self.tools / name).chmod(0o755)
        (self.tools / PROGRAM).symlink_to(self.programs / PROGRAM)
        self.state = self.user / ".local/state/syncthing-audit/watch"
        self.configuration = self.user / ".config/syncthing-audit/watch.xml"
        self.configuration.parent.mkdir(parents=True)
        self.homes_alone = "".join(f'<device place="{home}"/>' for home in self.homes)

    def night(self, elements=None, **settings):
        """The night that the unit makes as a configuration of these elements says; gives its status, what it prints, and what was mailed that night."""
        text = f'<watch>{self.homes_alone if elements is None else elements}<mail to="me@example.org"/><metrics path="{self.metrics}"/></watch>'
        self.configuration.write_text(text)
        command, = re.findall(r"^ExecStart=(.*)$", UNIT.read_text(), re.MULTILINE)
        path, = re.findall(r"^Environment=PATH=(.*)$", UNIT.read_text(), re.MULTILINE)
        mails = self.tools / "mails"
        mails.unlink(missing_ok=True)
        ran = run([*command.replace("%h", str(self.user)).split(), "--still", "0"],
                  env={"HOME": str(self.user), "PATH": path.replace("%h", str(self.user)), "SYNCAUDIT": auditor(), **settings})
        self.printed = ran.stderr
        return ran.returncode, ran.stdout, mails.read_text() if mails.exists() else ""

    @staticmethod
    def subjects(mails):
        """The subjects of mails, behind the host's name."""
        return [line.split(": ", 2)[2] for line in mails.splitlines() if line.startswith("Subject: ")]


class Watched(Nights):
    """All that a night does by itself."""

    def test_silence_means_something(self):
        """The first night tells how all is, and each first one of a month. The others are silent."""
        status, text, mails = self.night()
        self.assertEqual((status, self.subjects(mails)), (0, ["first night: in step"]), self.printed)
        self.assertIn("\n2 devices, 0 MB read\ndocs: ", mails)
        self.assertTrue(text.startswith(f"docs: {IN_STEP}; still for 0 s: 21 names "), text)
        self.assertEqual(self.night()[::2], (0, ""))
        state = json.loads((self.state / "watch.json").read_text())
        self.assertEqual((state["month"], state["untold"]), (time.strftime("%Y-%m"), False))
        (self.state / "watch.json").write_text(json.dumps({**state, "month": "2020-01"}))
        self.assertEqual(self.subjects(self.night()[2]), ["all is as before: in step"])

    def test_the_same_rot_is_told_once(self):
        self.night()
        undo = rot(self.room / "made/device1/files/00000/07.bin", 5)
        try:
            status, text, mails = self.night()
            self.assertEqual((status, self.subjects(mails)), (1, ["NOT in step, with news"]), self.printed)
            self.assertIn("\nnew: 00000/07.bin in docs on device1: StoreDiffers\n", mails)
            self.assertIn("\n  device1: other bytes on the disk", mails)
            status, text, mails = self.night()
            self.assertEqual((status, mails), (1, ""))
            self.assertIn("00000/07.bin", text)
        finally:
            undo()
        status, _, mails = self.night()
        self.assertEqual((status, "\nmended: 00000/07.bin in docs on device1: StoreDiffers\n" in mails), (0, True), mails)
        self.assertEqual(self.night()[::2], (0, ""))

    def test_a_machine_that_is_off(self):
        """It is told once, and the others are audited: rot is told all the same."""
        both = self.homes_alone + '<device place="off:"/>'
        self.night()
        status, _, mails = self.night(both)
        self.assertEqual((status, self.subjects(mails)), (6, ["in step as far as audited, with news"]))
        self.assertRegex(mails, r"(?m)^left out: off: its command ended with exit status 255: ssh: connect to host off: No route to host")
        self.assertEqual(self.night(both)[::2], (6, ""))
        undo = rot(self.room / "made/device2/files/00000/03.bin", 5)
        try:
            status, _, mails = self.night(both)
        finally:
            undo()
        self.assertEqual((status, "\nnew: 00000/03.bin in docs on device2: StoreDiffers\n" in mails), (1, True))
        self.night(both)
        self.assertIn("\nno device and no folder is left out any more\n", self.night()[2])

    def test_a_rotten_device_that_is_off_for_some_nights(self):
        """Nobody looked at what is rotten: that isn't mended, and neither is it new once the device is back."""
        self.night()
        undo, home = rot(self.room / "made/device2/files/00000/03.bin", 5), self.homes[1]
        try:
            self.assertIn("\nnew: 00000/03.bin in docs on device2: StoreDiffers\n", self.night()[2])
            home.rename(home.with_name("away"))
            try:
                status, _, mails = self.night()
                self.assertEqual((status, "left out: " in mails, "mended: " in mails, "new: " in mails), (6, True, False, False), mails)
                self.assertEqual(self.night()[::2], (6, ""))
            finally:
                home.with_name("away").rename(home)
            status, _, mails = self.night()
            self.assertEqual((status, "no device and no folder is left out any more\n" in mails, "mended: " in mails, "new: " in mails), (1, True, False, False), mails)
            self.assertEqual(self.night()[::2], (1, ""))
        finally:
            undo()
        self.assertIn("\nmended: 00000/03.bin in docs on device2: StoreDiffers\n", self.night()[2])

    def test_a_home_that_cannot_be_read(self):
        """It is left out with why, in one line: its certificate says whose it is."""
        self.night()
        configuration = self.homes[1] / "config.xml"
        configuration.rename(self.homes[1] / "away")
        try:
            status, _, mails = self.night()
        finally:
            (self.homes[1] / "away").rename(configuration)
        self.assertEqual((status, len(re.findall(r"(?m)^left out: docs of device2: .*config.xml: no such file or directory", mails)), "no home or part of it is given" in mails),
                         (6, 2, False), mails)

    def test_no_answer_is_told_each_night(self):
        for _ in range(2):
            status, _, mails = self.night(SYNCAUDIT="/nowhere/syncaudit")
            self.assertEqual((status, self.subjects(mails)), (127, ["no answer, status 127"]))
            self.assertIn("/nowhere/syncaudit", mails)
            self.assertIn("syncthing_audit_status 127", self.metrics.read_text().splitlines())
            self.assertNotIn("syncthing_audit_names", self.metrics.read_text())

    def test_what_is_not_told_is_told_by_the_next_night(self):
        """It is killed as it tells, or who is to be told can't be reached."""
        self.night()
        undo = rot(self.room / "made/device1/files/00000/07.bin", 5)
        try:
            self.night(f'{self.homes_alone}<notify command="kill -9 $PPID"/>')
            status, _, mails = self.night(f'{self.homes_alone}<notify command="false"/>')
            self.assertEqual((status, "the night before ended before it told what is new" in mails, "00000/07.bin" in mails), (1, True, True), mails)
            self.assertIn("<notify>: exit status 1", self.printed)
            self.assertIn("00000/07.bin", self.night()[2])
            self.assertEqual(self.night()[::2], (1, ""))
        finally:
            undo()

    def test_others_are_told(self):
        told, pinged = self.user / "told", self.user / "pinged"
        commands = f'<notify command="(echo &quot;$SUBJECT&quot;; cat) >> {told}"/><ping command="echo ping >> {pinged}"/>'
        status, text, _ = self.night(self.homes_alone + commands)
        self.assertEqual((status, told.read_text()), (0, f"first night: in step\n2 devices, 0 MB read\n{text}"))
        self.night(self.homes_alone + commands)
        self.night(self.homes_alone + commands, SYNCAUDIT="/nowhere/syncaudit")
        self.assertEqual((pinged.read_text(), told.read_text().count("no answer")), ("ping\nping\n", 1))
        status, _, _ = self.night(f'{self.homes_alone}<ping command="false"/>')
        self.assertEqual((status, "<ping>: exit status 1" in self.printed), (2, True))

    def test_configurations_that_are_wrong(self):
        """Nothing is done then, and it is told, as far as it is known whom to tell."""
        for elements, why in (('<device plaice="x"/>', "<device> has no attribute plaice"), ("<devices place=\"x\"/>", "<watch> has no element <devices>"),
                              ("", "it names no <device>, no <parts> and no <observed>"), ('<device place=""/>', '<device place=""> is empty'), ('<device data="x"/>', 'place=".."> isn\'t given'),
                              (f'{self.homes_alone}<slices count="0"/>', 'count="0" isn\'t taken'), (f'{self.homes_alone}<slices count="7" hour="24"/>', 'hour="24" isn\'t taken'),
                              (f'{self.homes_alone}<slices count="seven"/>', "invalid syntax"), (f'{self.homes_alone}<budget bytes="1GB"/>', "<budget> is for <observed> devices"),
                              ('<observed id="A" address="tcp://a:1"/><folder id="docs"/><budget bytes="many"/>', '<budget bytes="many">: it is a number with kB, MB, GB or TB'), (f'{self.homes_alone}<state path="a"/><state path="b"/>', "<state> stands twice"),
                              ('<observed id="A" address="tcp://a:1"/>', "each <folder> is to be named"), (f'<parts directory="{self.parts}" hours="-1"/>', 'hours="-1" isn\'t taken'),
                              (f"{self.homes_alone}</watch><watch>", "it goes on behind </watch>")):
            status, text, _ = self.night(elements)
            self.assertEqual((status, text), (2, ""), elements)
            self.assertIn(why, self.printed)
        self.assertFalse(self.state.exists())
        self.assertEqual(self.subjects(self.night('<slices count="0"/>' + self.homes_alone)[2]), ["no audit"])
        status, _, mails = self.night(self.homes_alone + '<mail to="you@example.org"/>')
        self.assertEqual((status, sorted(set(self.subjects(mails)))), (2, ["no audit"]))
        for words in ([], ["a", "b"], ["a", "--folder", "x"]):
            self.assertEqual(run([self.programs / PROGRAM, "watch", *words]).returncode, 3)

    def test_one_night_at_a_time(self):
        self.night()
        with (self.state / "watch.lock").open() as lock:
            fcntl.flock(lock, fcntl.LOCK_EX)
            status, text, mails = self.night()
        self.assertEqual((status, text, self.subjects(mails), "another night goes on" in mails), (2, "", ["no audit"], True))
        self.assertEqual(self.night()[0], 0)

    def test_parts_that_are_sent(self):
        """Each is of its age, of tonight's slice, and a file; what isn't is told, and the rest is audited."""
        for number, home in enumerate(self.homes):
            run([self.programs / PROGRAM, "part", "--home", home, "-o", self.parts / f"{number}.part"], check=True)
        sent = f'<parts directory="{self.parts}"/>'
        self.assertEqual(self.night(sent)[0], 0, self.printed)
        os.mkfifo(self.parts / "pipe.part")
        status, _, mails = self.night(sent)
        self.assertEqual((status, self.subjects(mails)), (2, ["in step, and the night itself has a fault"]))
        self.assertIn("pipe.part is no file, so it isn't read\n", mails)
        (self.parts / "pipe.part").unlink()
        status, _, mails = self.night(f'<parts directory="{self.parts}" hours="0.0000001"/>')
        self.assertEqual((status, mails.count(" is 0 hours old: ")), (2, 2))
        run([self.programs / PROGRAM, "part", "--home", self.homes[1], "--names", "0", "-o", self.parts / "1.part"], check=True)
        status, _, mails = self.night(sent)
        self.assertEqual((status, "the part of device2 has the names that begin with 0" in mails, "\nleft out: docs of device2" in mails), (6, True, True), mails)
        (self.parts / "1.part").write_bytes(b"no part")
        self.assertEqual((self.night(sent)[0], self.night(f'{sent}{self.homes_alone}')[0]), (2, 2))

    def test_both_ways_have_an_answer_each(self):
        run([self.programs / PROGRAM, "part", "--home", self.homes[1], "-o", self.parts / "1.part"], check=True)
        status, text, mails = self.night(f'<parts directory="{self.parts}"/><device place="{self.homes[0]}"/>')
        self.assertEqual((status, re.findall(r"(?m)^== (\w+)$", text)), (6, ["run", "parts"]), self.printed)
        self.assertIn("alone: docs is audited on one device", text)
        self.assertTrue(mails)

    def test_a_slice_each_night(self):
        status, text, mails = self.night(f'{self.homes_alone}<slices count="3"/>')
        due = int(time.time() // 86400 % 3) + 1
        self.assertEqual((status, self.subjects(mails)), (6 if "as far as audited" in text else 0, [f"first night: in step, slice {due} of 3 of all names"]), self.printed)
        self.assertIn(f'syncthing_audit_slice{{of="3"}} {due}', self.metrics.read_text().splitlines())
        self.assertRegex(self.metrics.read_text(), rf'(?m)^syncthing_audit_names{{folder="docs",slice="{due}/3"}} \d+$')

    def test_metrics(self):
        self.night()
        lines = self.metrics.read_text().splitlines()
        for line in ("syncthing_audit_status 0", 'syncthing_audit_names_wrong{folder="docs"} 0', 'syncthing_audit_names{folder="docs"} 21', "syncthing_audit_left_out 0"):
            self.assertIn(line, lines)
        self.assertEqual(len([line for line in lines if re.match(r'syncthing_audit_part_timestamp_seconds\{device="[-A-Z2-7]+",name="device[12]"\} \d+$', line)]), 2)
        self.assertEqual(len([line for line in lines if re.match(r'syncthing_audit_oldest_read_timestamp_seconds\{folder="docs",device="[-A-Z2-7]+",name="device[12]"\} \d+$', line)]), 2)
        self.assertEqual(self.metrics.stat().st_mode & 0o777, 0o644)
        self.metrics.unlink()
        self.metrics.mkdir()
        status, _, mails = self.night()
        self.assertEqual((status, "the metrics can't be written: " in mails), (2, True))

    def test_nothing_raw_is_mailed(self):
        odd = self.room / "made/device1/files/\x1b]0;evil\x07\nSubject: fake"
        odd.write_text("x")
        try:
            _, text, mails = self.night()
        finally:
            odd.unlink()
        self.assertEqual([letter for letter in text + mails if not letter.isprintable() and letter != "\n"], [])
        self.assertNotIn("\nSubject: fake", mails)
        self.assertIn(r"\x1b]0;evil\x07\x0aSubject: fake", mails)

    def test_a_page_of_the_nights(self):
        """Each night is on it, also one without an answer, beside what was seen last. A page that can't be written is a fault of the night."""
        path = self.user / "audit.html"
        wanted = f'{self.homes_alone}<page path="~/audit.html"/>'
        self.night(wanted)
        undo = rot(self.room / "made/device1/files/00000/07.bin", 5)
        try:
            self.assertEqual(self.night(wanted)[0], 1)
        finally:
            undo()
        text = path.read_text()
        for words in ("NOT in step: 1 name wrong", "1 name wrong here", "nothing wrong here", "00000/07.bin", "20 files, 2000 bytes read"):
            self.assertIn(words, text)
        self.assertEqual(path.stat().st_mode & 0o777, 0o644)
        self.assertEqual(self.night(wanted, SYNCAUDIT="/nowhere/syncaudit")[0], 127)
        for words in ("no answer, status 127", "There was no answer ", "NOT in step: 1 name wrong", "/nowhere/syncaudit"):
            self.assertIn(words, path.read_text())
        by_hand = self.user / "by-hand.html"
        run([self.programs / PROGRAM, "report", "--html", by_hand, "--watch", self.configuration], env={"HOME": str(self.user), "PATH": os.environ["PATH"]}, check=True)
        self.assertEqual(by_hand.read_text().partition("<footer")[0], path.read_text().partition("<footer")[0])
        path.unlink()
        path.mkdir()
        status, _, mails = self.night(wanted)
        self.assertEqual((status, "the page can't be written: " in mails), (2, True))
        self.assertEqual(len(json.loads((self.state / "nights.json").read_text())["nights"]), 4)
        (self.state / "nights.json").write_text("{")
        status, _, mails = self.night()
        self.assertEqual((status, "what earlier nights left for the page can't be read, and is lost: " in mails), (2, True))
        self.assertEqual(self.night()[::2], (0, ""))

    def test_the_units_are_read_by_systemd(self):
        if not shutil.which("systemd-analyze"):
            self.skipTest("systemd-analyze isn't installed")
        units = self.user / ".config/systemd/user"
        units.mkdir(parents=True)
        for path in (CONTRIB / "systemd").iterdir():
            shutil.copy(path, units)
        (self.user / ".config/syncthing-audit/part.conf").touch()
        ran = subprocess.run(["systemd-analyze", "--user", "verify", "--man=no", *units.iterdir()], capture_output=True, text=True,
                             env={"HOME": str(self.user), "PATH": os.environ["PATH"], "XDG_RUNTIME_DIR": str(self.user)})
        # The system's own units are read, too. A socket of theirs has too long a path where the temporary directory has a long one.
        of_these = tuple(word for unit in units.iterdir() for word in (str(unit), unit.name))
        self.assertEqual((ran.returncode, [line for line in ran.stderr.splitlines() if line.startswith(of_these)]), (0, []))

    def test_the_units_are_units(self):
        """The example of a configuration is one, too, and the page's commands name files that are there."""
        example = (CONTRIB / "watch.xml").read_text()
        self.configuration.write_text(example.replace("laptop:", "off:").replace("~/.config/syncthing", str(self.homes[0])))
        ran = run([self.programs / PROGRAM, "watch", self.configuration, "--still", "0"],
                  env={"HOME": str(self.user), "PATH": f"{self.tools}:{os.environ['PATH']}", "SYNCAUDIT": auditor()})
        self.assertEqual(ran.returncode, 6, ran.stderr)
        commented = re.findall(r"<!-- (<.*>) -->", example)
        self.assertEqual(len(commented), 12)
        for line in commented:
            self.assertRegex(line, "^<(device|folder|slices|budget|notify|ping|metrics|page|parts|observed|state) ")
        for name in re.findall(r"auditor/nightly/([\w./-]+\w)", (CONTRIB / "README.md").read_text()):
            self.assertTrue((CONTRIB / name).exists() or list(Path(CONTRIB).glob(f"{name}*")), name)


if __name__ == "__main__":
    main()
