#!/usr/bin/env python3
"""One command that audits real Syncthing devices on loopback that go on running, by what stands for ssh.

    auditor/test/live_run.py
"""

import json
import os
import pty
import re
import shutil
import signal
import subprocess
import sys
from pathlib import Path

from answers import SCHEMA, STATUS_MISSING
from exporting import IN_STEP, main, make_endless, run, to_the_end
from live_looks import Live, rot
from syncthing import FOLDER, SECONDS_TO_WAIT, wait_until, wait_until_in_step

# What a busy machine is told of those that it waits for.
WAITING = ": waiting for "


class LiveRun(Live):
    """Three devices in step, of which one command asks by what stands for ssh."""

    names = ("one", "two", "three")
    SSH = """#!/bin/sh
[ "$1" != -G ] || exec echo serveraliveinterval 7
while [ "$1" = -o ]; do shift 2; done
machine=$1
shift
echo "$*" >> "{room}/commands"
# As with a real connection, no signal reaches the program on this machine; its input ends with the one who asks.
case $machine in far) machine=one; cat | HOME="{room}/one/user" TMPDIR="{room}/far" PATH={programs}:$PATH setsid sh -c "$*"; exit;; esac
case $machine in off) echo "ssh: connect to host off port 22: No route to host" >&2; exit 255;; esac
cd "{room}/$machine/user" && HOME=$PWD PATH={programs}:$PATH exec sh -c "$*"
"""

    @classmethod
    def setUpClass(cls):
        super().setUpClass()
        programs = cls.room / "programs"
        programs.mkdir()
        (programs / "ssh").write_text(cls.SSH.format(room=cls.room, programs=cls.program.parent))
        (programs / "ssh").chmod(0o700)
        cls.user = cls.room / "user"  # who runs this: what that one knows of devices stands in the home
        cls.known = cls.user / ".local/state/syncthing-audit/known_devices"
        cls.environment = {**os.environ, "PATH": f"{programs}:{os.environ['PATH']}", "HOME": str(cls.user)}
        for device in cls.devices:
            user = device.home.parent / "user" / ".config"
            user.mkdir(parents=True)
            (user / "syncthing").symlink_to(device.home)
        _, two, three = cls.devices
        cls.met = run([cls.program, "run", "one:", f"two:{two.home}", three.home, "--still", "0", "--syncaudit", cls.auditor], env=cls.environment)

    @property
    def commands(self):
        """What was asked of other machines, a command on a line."""
        return self.room / "commands"

    def assert_no_look(self):
        """No look was begun on another machine: only what is shared was asked."""
        self.assertNotIn("--begin", self.commands.read_text())

    def run_on(self, *words):
        """Runs the command on all devices: by ssh at the home that Syncthing takes by itself, by ssh at another one, and here."""
        return self.run_at(["one:", f"two:{self.two.home}", self.three.home], *words)

    def run_at(self, places, *words):
        """Runs the command at these places."""
        self.commands.write_text("")
        return run([self.program, "run", *places, "--still", "0", "--syncaudit", self.auditor, *words],
                   env=self.environment)

    def test_in_step(self):
        ran = self.run_on()
        self.assertEqual(ran.returncode, 0, ran.stderr)
        self.assertRegex(ran.stdout.splitlines()[0], rf"^{FOLDER}: {IN_STEP}; still for \d+ s: 6 names .*; in motion: 0$")

    def test_a_machine_keeps_its_device(self):
        """Which device each machine is, is told and kept as it is met first. Another one there is refused before any look."""
        lines = [f"{self.one.id} one:", f"{self.two.id} two:{self.two.home}"]
        had = self.known.read_text()
        self.assertEqual((self.met.returncode, set(lines) - set(had.splitlines())), (0, set()), self.met.stderr)
        self.assertEqual(self.known.stat().st_mode & 0o777, 0o600)
        for place, device in (("one", self.one), (f"two:{self.two.home}", self.two)):
            self.assertIn(f"syncthing-audit: {place}: it is device {device.id}, and is refused if it is another one next time", self.met.stderr)
        self.known.write_text("\n".join([f"{self.three.id} one:", lines[1]]))
        try:
            ran = self.run_on()
        finally:
            self.known.write_text(had)
        self.assertEqual((ran.returncode, ran.stdout), (2, ""))
        self.assertIn(f"refused: one says that it is device {self.one.id}, and it was {self.three.id} when it was met first", ran.stderr)
        self.assert_no_look()

    def test_a_pipe_is_told_nothing_of_steps(self):
        """The devices' numbers are told there, where lines have these."""
        ran = self.run_on("--lines")
        self.assertEqual(ran.returncode, 0, ran.stderr)
        lines = [line for line in ran.stderr.splitlines() if line.startswith("syncthing-audit: ") and WAITING not in line]
        self.assertEqual([line.split()[1] for line in lines], ["device", "device", "device"], ran.stderr)
        self.assertIn("--begin", self.commands.read_text())

    def test_a_terminal_is_told_each_step_once(self):
        terminal, other_end = pty.openpty()
        self.addCleanup(os.close, terminal)
        process = subprocess.Popen([self.program, "run", "one:", f"two:{self.two.home}", self.three.home, "--still", "1", "--syncaudit", self.auditor],
                                   env=self.environment, stdout=subprocess.DEVNULL, stderr=other_end)
        os.close(other_end)
        told = to_the_end(terminal)
        self.assertEqual(process.wait(SECONDS_TO_WAIT), 0)
        steps = [line.partition("\r")[0] for line in told.decode().split("syncthing-audit: ")[1:] if WAITING not in line]
        looks = {f"{name}: {look} look done in 0 s" for name in ("one", f"two:{self.two.home}", str(self.three.home)) for look in ("first", "second")}
        waits = [step for step in steps if step.startswith("second look in ")]
        self.assertEqual(sorted(re.sub(r"done in \d+ s", "done in 0 s", step) for step in steps[2:] if step not in waits), sorted(looks))
        self.assertEqual(steps[:2], ["asking 3 devices what is shared", "first look at 3 devices, hashing all files"])
        self.assertIn(waits, ([], ["second look in 0 s"], ["second look in 1 s"]))  # none where a second has passed by then

    def test_other_bytes(self):
        with rot(self.two.files / "folder" / "large", 1000):
            ran = self.run_on("--lines", "--folder", FOLDER)
        self.assertEqual((ran.returncode, ran.stdout.splitlines()[0]), (1, self.fault("StoreDiffers", "folder/large", self.two)), ran.stderr)
        self.assertIn(f"{self.two.id} (two:{self.two.home})", ran.stderr)

    def test_steps_go_into_scripts(self):
        with rot(self.two.files / "folder" / "large", 1000):
            ran = self.run_on("--script", self.room / "steps")
        scripts = [path.read_text() for path in (self.room / "steps").iterdir()]
        self.assertEqual((ran.returncode, len(scripts)), (1, 1), ran.stderr)
        self.assertIn("fetch 2 \"$folder_1\" 'folder/large' \"$source_1\" over\n", scripts[0])

    def test_what_no_scan_has_seen(self):
        """Without a scan it waits; with one that is asked for before it is recorded, and the others take it."""
        path = self.one.files / "late"
        path.write_text("late")
        try:
            ran = self.run_on("--lines")
            self.assertEqual((ran.returncode, self.moving(ran.stdout.splitlines())), (6, {"late"}), ran.stderr)
            ran = self.run_on("--rescan", "--lines")
            self.assertIn(ran.returncode, (0, 1, 6), ran.stderr)
            wait_until_in_step(*self.devices)
            ran = self.run_on("--lines")
            self.assertEqual((ran.returncode, ran.stdout.splitlines()[1]), (0, f"folder {FOLDER}: 7 names, 1 deleted, 3 devices"), ran.stderr)
        finally:
            path.unlink()
            self.scan_and_wait()

    def test_a_scan_of_a_stopped_device_is_refused(self):
        self.two.stop()
        try:
            ran = self.run_on("--rescan", "--strict")
        finally:
            self.two.start()
            wait_until_in_step(*self.devices)
        self.assertEqual((ran.returncode, ran.stdout), (2, ""))
        self.assertIn(f"refused: no Syncthing runs on {self.two.home}: none holds the lock of", ran.stderr)
        self.assert_no_look()

    def test_a_scan_of_a_paused_folder_is_refused(self):
        """It is told what to do, before any device scans or hashes."""
        self.two.api("PATCH", f"config/folders/{FOLDER}", {"paused": True})
        try:
            wait_until("it is paused", lambda: "<paused>true" in (self.two.home / "config.xml").read_text())
            ran = self.run_on("--rescan", "--strict")
            alone = run([self.program, "part", "--begin", "--rescan", "--home", self.two.home, "-o", self.room / "paused.begin"])
        finally:
            self.two.api("PATCH", f"config/folders/{FOLDER}", {"paused": False})
            wait_until_in_step(*self.devices)
        for one in (ran, alone):
            self.assertEqual((one.returncode, one.stdout), (2, ""))
            self.assertIn(f"folder {FOLDER} is paused there, and Syncthing doesn't scan it: resume it", one.stderr)
        self.assert_no_look()

    def test_a_folder_whose_disk_is_not_mounted(self):
        """It is left out on that device. A strict run says so before any device hashes its files."""
        marker = self.two.files / ".stfolder"
        marker.rename(self.room / "away")
        try:
            strict = self.run_on("--strict")
            self.assert_no_look()
            told = [self.run_on(), self.run_on("--folder", FOLDER)]
        finally:
            (self.room / "away").rename(marker)
        why = "its directory has no .stfolder, by which Syncthing knows the folder"
        self.assertEqual((strict.returncode, strict.stdout), (2, ""))
        self.assertIn(why, strict.stderr)
        for ran in told:
            left, = [line for line in ran.stdout.splitlines() if line.startswith("left out: ")]
            self.assertEqual((ran.returncode, left.startswith(f"left out: {FOLDER} of {self.two.id}: "), why in left), (6, True, True), ran.stdout)
        self.assertEqual(self.run_on("--lines").stdout.splitlines()[0], "settled")

    def test_a_program_reads_the_same(self):
        ran = self.run_on("--json")
        read = json.loads(ran.stdout)
        live = read["folders"][0]["live"]
        self.assertEqual((read["verdict"], live["names_in_motion"], live["in_motion"], live["not_heard_of"]), ("in-step", 0, [], []))
        self.assertGreater(live["still_seconds"], 0)
        judged = subprocess.run([sys.executable, SCHEMA], input=ran.stdout, capture_output=True, text=True)
        if judged.returncode == STATUS_MISSING:
            self.skipTest("Python's jsonschema isn't installed")
        self.assertEqual(judged.returncode, 0, judged.stdout)

    def test_commands_are_told(self):
        ran = self.run_on("--dry-run", "--folder", FOLDER, "--jobs", "1")
        self.assertEqual(ran.returncode, 0, ran.stderr)
        self.assertIn(f"ssh -o 'ConnectTimeout=20' one 'PATH=\"$PATH:$HOME/.local/bin\" nice -n 19 syncthing-audit part --begin --jobs 1 --folder {FOLDER} -o -' < /dev/null > one.begin 2> one.log\n", ran.stdout)
        self.assertIn(f"ssh -o 'ConnectTimeout=20' two 'PATH=\"$PATH:$HOME/.local/bin\" syncthing-audit part --end --tokens - --leave-out absent --still 0 --home {self.two.home} --folder {FOLDER} -o -'"
                      " < tokens > two.end\n", ran.stdout)

    def test_the_told_commands_work(self):
        """A shell runs what is told, and comes to the same answer; progress among the tokens doesn't matter."""
        told = self.run_on("--dry-run")
        room = self.room / "recipe"
        room.mkdir()
        with rot(self.two.files / "folder" / "large", 1000):
            ran = run(["sh", "-e"], cwd=room, input=told.stdout,
                      env={**self.environment, "SYNCAUDIT": str(self.auditor)})
        self.assertEqual(ran.returncode, 1, ran.stderr)
        self.assertIn("folder/large", ran.stdout)
        self.assertEqual(len((room / "tokens").read_text().splitlines()), 3)

    def test_a_machine_that_does_not_answer(self):
        ran = self.run_at(["one:", "off:"], "--strict")
        self.assertEqual((ran.returncode, ran.stdout), (2, ""))
        self.assertEqual(ran.stderr.count("off: its command ended with exit status 255: ssh: connect to host off"), 1, ran.stderr)
        self.assert_no_look()

    def test_the_others_are_audited_where_a_machine_does_not_answer(self):
        """It is told in one line, whether its id is known or not. What rots elsewhere is told all the same."""
        why = "off: its command ended with exit status 255: ssh: connect to host off"
        ran = self.run_at(["one:", f"two:{self.two.home}", "off:"])
        left = [line for line in ran.stdout.splitlines() if line.startswith("left out: ")]
        self.assertEqual((ran.returncode, [why in line for line in left]), (6, [False, True]), ran.stdout)
        known = self.user / ".local/state/syncthing-audit/known_devices"
        with known.open("a") as file:
            file.write(f"{self.three.id} off:\n")
        with rot(self.two.files / "folder" / "large", 1000):
            ran = self.run_at(["one:", f"two:{self.two.home}", "off:"])
        left, = [line for line in ran.stdout.splitlines() if line.startswith("left out: ")]
        self.assertEqual((ran.returncode, left.startswith(f"left out: {FOLDER} of {self.three.id}: {why}")), (1, True), ran.stdout)
        self.assertIn("folder/large", ran.stdout)

    def test_a_machine_without_the_program(self):
        ran = self.run_at(["one:"], "--remote-program", "nothing-there")
        self.assertEqual((ran.returncode, ran.stdout), (2, ""))
        self.assertIn("one: its command ended with exit status 127: ", ran.stderr)
        self.assertIn("Is syncthing-audit installed there? --remote-program says how it is called", ran.stderr)

    def test_a_device_that_is_not_asked(self):
        ran = self.run_at(["one:", "two:"], "--strict")
        self.assertEqual((ran.returncode, ran.stdout), (2, ""))
        self.assertIn(self.three.id, ran.stderr)
        self.assert_no_look()
        ran = self.run_at(["one:", "two:"], "--lines")
        self.assertEqual((ran.returncode, ran.stdout.splitlines()[0]), (6, "settled as far as audited"), ran.stderr)

    def test_a_device_that_is_given_twice(self):
        ran = self.run_at(["one:", f"two:{self.two.home}", self.three.home, self.one.home])
        self.assertEqual((ran.returncode, ran.stdout), (2, ""))
        self.assertIn(f"one: and {self.one.home} are both of device", ran.stderr)
        self.assert_no_look()

    def test_a_machine_with_an_older_program(self):
        """It doesn't know the question what it shares, which is told; all else goes on as it did."""
        older = self.room / "older"
        older.write_text('#!/bin/sh\ncase "$*" in *--about*) echo "syncthing-audit: flag provided but not defined: -about" >&2; exit 3;; esac\n'
                         f'exec {self.program} "$@"\n')
        older.chmod(0o700)
        ran = self.run_on("--remote-program", str(older))
        self.assertEqual(ran.returncode, 0, ran.stderr)
        self.assertIn("one: the syncthing-audit there is older, and doesn't say what is shared before it hashes", ran.stderr)
        ran = self.run_at(["one:", "two:"], "--strict", "--remote-program", str(older))
        self.assertEqual((ran.returncode, ran.stdout), (2, ""))
        self.assertIn(self.three.id, ran.stderr)

    def test_the_other_machine_ends_with_the_run(self):
        """What hashes elsewhere ends once the one who asks is gone, and takes away its copy of the index."""
        room = self.room / "far"
        room.mkdir()
        endless = self.one.files / "endless"
        make_endless(endless)
        try:
            # Where the tests run in the background, their shell may have them ignore SIGINT.
            process = subprocess.Popen([self.program, "run", "far:", self.two.home, self.three.home, "--syncaudit", self.auditor],
                                       env=self.environment, stdout=subprocess.DEVNULL, stderr=subprocess.DEVNULL,
                                       preexec_fn=lambda: signal.signal(signal.SIGINT, signal.SIG_DFL))
            wait_until("the other machine hashes", lambda: list(room.iterdir()) and self.reads(endless))
            process.send_signal(signal.SIGINT)
            self.assertEqual(process.wait(SECONDS_TO_WAIT), 128 + signal.SIGINT)
            wait_until("nothing is there", lambda: not list(room.iterdir()))
            wait_until("nothing hashes", lambda: not self.reads(endless))
        finally:
            shutil.rmtree(endless)

    @staticmethod
    def reads(path):
        """Whether a process has a file of a directory open."""
        for link in Path("/proc").glob("[0-9]*/fd/*"):
            try:
                if os.readlink(link).startswith(f"{path}/"):
                    return True
            except OSError:
                pass
        return False

    def test_signals_leave_nothing_behind(self):
        room = self.room / "temporary"
        room.mkdir()
        process = subprocess.Popen([self.program, "run", self.one.home, self.two.home, self.three.home, "--still", "1000",
                                    "--syncaudit", self.auditor], env={**os.environ, "TMPDIR": str(room)}, stdout=subprocess.DEVNULL,
                                   stderr=subprocess.DEVNULL)
        wait_until("something is there", lambda: list(room.iterdir()))
        process.terminate()
        process.wait(SECONDS_TO_WAIT)
        wait_until("nothing is there", lambda: not list(room.iterdir()))


if __name__ == "__main__":
    main()
