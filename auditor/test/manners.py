#!/usr/bin/env python3
"""How the audit behaves where something comes between: signals, a full disk, terminals and pipes. Homes and indexes are
written by Syncthing's own packages, and no device runs.

    auditor/test/manners.py
"""

import os
import pty
import shutil
import signal
import subprocess
import tempfile
import unittest
from pathlib import Path
from types import SimpleNamespace

from exporting import IN_STEP, PROGRAM, auditor, built, is_over, main, make_endless, run, shown, to_the_end
from syncthing import SECONDS_TO_WAIT, wait_until

FILES = 2000
SIGNALS = (signal.SIGINT, signal.SIGTERM, signal.SIGHUP)
SETTLED = f"docs: {IN_STEP}; {FILES + FILES // 100:,} names (0 deleted), "


def has_open_below(process, directory):
    """Whether a process has a file below a directory open."""
    try:
        return any(os.path.realpath(one).startswith(f"{directory.resolve()}/") for one in Path(f"/proc/{process.pid}/fd").iterdir())
    except FileNotFoundError:
        return False


def kill(process):
    """Kills a process that may have ended."""
    try:
        os.kill(process, signal.SIGKILL)
    except ProcessLookupError:
        pass


class Manners(unittest.TestCase):
    """Two homes of devices in step."""

    @classmethod
    def setUpClass(cls):
        if is_over():
            raise unittest.SkipTest("the time is over")
        room = tempfile.TemporaryDirectory(prefix="syncthing-audit-test-")
        cls.addClassCleanup(room.cleanup)
        cls.room = Path(room.name)
        programs = built(cls.room)
        cls.program = programs / PROGRAM
        run([programs / "sample", "--files", str(FILES), "--bytes", "100", cls.room], check=True)
        cls.homes = [cls.room / f"device{number}" / "home" for number in (1, 2)]
        cls.parts = [cls.room / f"{number}.part" for number in (1, 2)]
        for home, part in zip(cls.homes, cls.parts):
            run([cls.program, "part", "--home", home, "-o", part], check=True)

    def setUp(self):
        if is_over():
            self.skipTest("the time is over")
        self.temporary = self.room / "temporary"
        self.temporary.mkdir()
        self.addCleanup(shutil.rmtree, self.temporary)

    def start(self, *words, **options):
        """Starts the audit, its temporary directory being this case's."""
        process = subprocess.Popen([self.program, *words], env={**os.environ, "TMPDIR": str(self.temporary)}, preexec_fn=take_signals,
                                   **options)
        self.addCleanup(process.wait)
        self.addCleanup(process.kill)
        return process

    def waiting_auditor(self):
        """A program that answers as the real one does, once the file is there whose path comes with it."""
        path, allowed = self.temporary / "waiting", self.temporary / "allowed"
        path.write_text(f'#!/bin/sh\necho $$ >> {self.temporary}/asked\n'
                        f'while [ ! -e {allowed} ]; do sleep 0.1; done\nexec "{auditor()}" "$@"\n')
        path.chmod(0o755)
        return path, allowed

    def test_progress_on_a_terminal(self):
        """While the parts are joined and syncaudit answers, a terminal is told how far that is."""
        program, allowed = self.waiting_auditor()
        terminal, other_end = pty.openpty()
        self.addCleanup(os.close, terminal)
        check = self.start("check", *self.parts, "--syncaudit", program, stdout=subprocess.PIPE, stderr=other_end)
        os.close(other_end)
        told = b""
        while b"read 100 % of the parts; joined 2020 names; syncaudit answered 0 of " not in told:
            told += os.read(terminal, 4096)
        allowed.touch()
        output, _ = check.communicate(timeout=SECONDS_TO_WAIT)
        told += to_the_end(terminal)
        self.assertEqual((check.returncode, output.decode()[:len(SETTLED)]), (0, SETTLED))
        self.assertTrue(told.endswith(b"\r\x1b[K"), "the line isn't taken away")
        self.assertNotIn(b"\n", told)

    def test_a_pipe_is_told_nothing_of_progress(self):
        program, allowed = self.waiting_auditor()
        check = self.start("check", *self.parts, "--syncaudit", program, stdout=subprocess.PIPE, stderr=subprocess.PIPE)
        wait_until("syncaudit is asked", (self.temporary / "asked").exists)
        allowed.touch()
        output, error = check.communicate(timeout=SECONDS_TO_WAIT)
        self.assertEqual((check.returncode, output.decode()[:len(SETTLED)]), (0, SETTLED))
        self.assertEqual(error, b"")

    def test_a_signal_while_a_part_is_made_leaves_nothing(self):
        """The index is copied and the part begun; then nothing of both is left, and the status is the signal's."""
        endless = self.room / "device1" / "files" / "endless"
        make_endless(endless)
        self.addCleanup(shutil.rmtree, endless)
        into = self.temporary / "into"
        for number in SIGNALS:
            into.mkdir()
            process = self.start("part", "--home", self.homes[0], "-o", into / "one.part")
            wait_until("a file is hashed", lambda process=process: has_open_below(process, endless))
            self.assertTrue(list(self.temporary.glob("syncthing-audit-*")), "the index isn't copied")
            process.send_signal(number)
            self.assertEqual(process.wait(SECONDS_TO_WAIT), 128 + number)
            self.assertEqual((list(into.iterdir()), list(self.temporary.glob("syncthing-audit-*"))), ([], []))
            into.rmdir()

    @unittest.skipUnless(os.geteuid() == 0, "this isn't root")
    def test_root_becomes_the_user_whose_home_it_reads(self):
        """What that user can't read isn't hashed, and no symlink of his leads root's output elsewhere."""
        nobody = 65534
        room = Path(tempfile.mkdtemp(prefix="syncthing-audit-test-", dir="/var/tmp"))  # which that user can reach
        self.addCleanup(shutil.rmtree, room)
        run([self.program.parent / "sample", "--files", "5", "--bytes", "100", room], check=True)
        secret = room / "device1" / "files" / "secret"
        secret.write_text("of root")
        secret.chmod(0o600)
        for path in (room, *room.rglob("*")):
            if path != secret:
                os.chown(path, nobody, nobody)
        output, link = room / "asked.part", room / "link.part"
        link.symlink_to(room / "elsewhere.part")
        os.lchown(link, nobody, nobody)
        words = [self.program, "part", "--home", room / "device1" / "home", "-o"]
        environment = {**os.environ, "TMPDIR": str(room)}
        ran = run([*words, output], env=environment)
        self.assertEqual((ran.returncode, output.stat().st_uid), (0, nobody), ran.stderr)
        of_secret = [line for line in shown(self.program, output) if '"secret"' in line]
        self.assertEqual(len(of_secret), 1)
        self.assertIn("it can't be read: open", of_secret[0])
        for path in room.rglob("device2/home"):
            os.chown(path, nobody - 1, nobody)
        ran = run([self.program, "check", "--home", room / "device1" / "home", "--home", room / "device2" / "home"], env=environment)
        self.assertEqual((ran.returncode, "are of two users" in ran.stderr), (2, True), ran.stderr)
        ran = run([self.program, "part", "--home", self.homes[0], "-o", link], env=environment)
        self.assertEqual((ran.returncode, (room / "elsewhere.part").exists()), (2, False), ran.stderr)
        self.assertIn("is a symlink of another user, which root doesn't follow", ran.stderr)

    @unittest.skipUnless(os.geteuid() == 0 and shutil.which("setpriv"), "this isn't root, or setpriv is missing")
    def test_a_look_of_root_ends_with_the_run_that_began_it(self):
        """Also once it has become the user whose home it reads."""
        room = Path(tempfile.mkdtemp(prefix="syncthing-audit-test-", dir="/var/tmp"))  # which that user can reach
        self.addCleanup(shutil.rmtree, room)
        run([self.program.parent / "sample", "--files", "5", "--bytes", "100", room], check=True)
        make_endless(room / "device1/files/endless")
        for path in (room, *room.rglob("*")):
            os.chown(path, 65534, 65534)
        command = f"setpriv --pdeathsig TERM {self.program} part --home {room}/device1/home -o {room}/one.part > {room}/told 2>&1 & echo $!; wait"
        with subprocess.Popen(["sh", "-c", command], stdout=subprocess.PIPE, env={**os.environ, "TMPDIR": str(room)}) as began:
            look = SimpleNamespace(pid=int(began.stdout.readline()))
            self.addCleanup(kill, look.pid)
            wait_until("a file is hashed", lambda: has_open_below(look, room / "device1/files/endless"))
            self.assertEqual(os.stat(f"/proc/{look.pid}").st_uid, 65534)
            began.kill()
        wait_until("the look has ended", lambda: has_ended(look.pid))
        self.assertFalse((room / "one.part").exists())

    def test_what_a_killed_run_leaves_the_next_one_takes_away(self):
        """No part is there, and the copy of the index goes once another part is made. One that another run reads stays."""
        endless, into = self.room / "device1" / "files" / "endless", self.temporary / "into"
        make_endless(endless)
        self.addCleanup(shutil.rmtree, endless)
        into.mkdir()
        words = ("part", "--home", self.homes[0], "-o", into / "one.part")
        other = self.start("part", "--home", self.homes[0], "-o", into / "other.part")
        wait_until("another run hashes", lambda: has_open_below(other, endless))
        copies = lambda: set(self.temporary.glob("syncthing-audit-*"))
        of_other = copies()
        process = self.start(*words)
        wait_until("a file is hashed", lambda: has_open_below(process, endless))
        process.kill()
        process.wait(SECONDS_TO_WAIT)
        self.assertEqual((list(into.iterdir()), len(copies())), ([], 2))
        ran = run([self.program, "part", "--home", self.homes[1], "-o", into / "two.part"], env={**os.environ, "TMPDIR": str(self.temporary)})
        self.assertEqual((ran.returncode, [path.name for path in into.iterdir()], copies()), (0, ["two.part"], of_other), ran.stderr)
        other.terminate()
        other.wait(SECONDS_TO_WAIT)
        self.assertEqual(copies(), set())

    def test_a_crash_has_a_status_of_its_own(self):
        """That isn't the status of a refusal, and no core is left."""
        endless = self.room / "device1" / "files" / "endless"
        make_endless(endless)
        self.addCleanup(shutil.rmtree, endless)
        process = self.start("part", "--home", self.homes[0], "-o", self.temporary / "one.part", stderr=subprocess.PIPE, cwd=self.temporary)
        wait_until("a file is hashed", lambda: has_open_below(process, endless))
        process.send_signal(signal.SIGSEGV)
        told = process.communicate(timeout=SECONDS_TO_WAIT)[1]
        self.assertEqual(process.returncode, -signal.SIGABRT, told[-300:])
        self.assertEqual([path.name for path in self.temporary.iterdir() if not path.name.startswith("syncthing-audit-")], [])

    def test_closed_descriptors(self):
        """They lead to nothing: no file of the home is in the place of a standard one. Without an output there is no answer."""
        endless = self.room / "device1" / "files" / "endless"
        make_endless(endless)
        self.addCleanup(shutil.rmtree, endless)
        closed = (0, 2)
        process = subprocess.Popen([self.program, "part", "--home", self.homes[0], "-o", self.temporary / "one.part"],
                                   env={**os.environ, "TMPDIR": str(self.temporary)}, preexec_fn=lambda: [os.close(number) for number in closed])
        self.addCleanup(process.wait)
        self.addCleanup(process.kill)
        wait_until("a file is hashed", lambda: has_open_below(process, endless))
        self.assertEqual([os.readlink(f"/proc/{process.pid}/fd/{number}") for number in closed], ["/dev/null"] * 2)
        ran = run(["sh", "-c", f"{self.program} check {self.parts[0]} {self.parts[1]} >&-"])
        self.assertEqual(ran.returncode, 5, ran.stderr)

    def test_an_export_that_is_ended_leaves_no_document(self):
        """A signal leaves no directory that was made for them either. A kill does, and the next export into it takes away what is left."""
        endless, into = self.room / "device1" / "files" / "zz endless", self.temporary / "above" / "into"
        make_endless(endless)
        self.addCleanup(shutil.rmtree, endless)
        words = [word for home in self.homes for word in ("--home", home)] + ["--into", into]
        for number, status, left in ((signal.SIGINT, 128 + signal.SIGINT, []), (signal.SIGKILL, -signal.SIGKILL, [into])):
            process = self.start("export", *words, stderr=subprocess.DEVNULL)
            wait_until("a document is written", lambda: any(into.glob(".*/cut-0001.json")))
            process.send_signal(number)
            self.assertEqual(process.wait(SECONDS_TO_WAIT), status)
            self.assertEqual([*self.temporary.glob("above/into")], left)
            self.assertEqual([*into.glob("[!.]*")], [])
        ran = run([self.program, "export", *words, "--names", "0"])
        names = sorted(path.name for path in into.iterdir())
        self.assertEqual((ran.returncode, names[0], names[-1], any(name.startswith(".") for name in names)), (0, "cut-0001.json", "rest.jsonl", False), ran.stderr)

    def test_a_refused_export_leaves_no_document(self):
        """What is refused may stand behind names that have their document. Then the export may be made into the same directory."""
        odd, into = self.room / "device1" / "files" / "zz pipe", self.temporary / "into"
        os.mkfifo(odd)
        self.addCleanup(odd.unlink)
        export = [self.program, "export", *(word for home in self.homes for word in ("--home", home)), "--into", into]
        ran = run([*export, "--strict"])
        self.assertEqual((ran.returncode, into.exists()), (2, False), ran.stderr)
        self.assertEqual(run(export).returncode, 0)
        before = sorted(into.iterdir())
        ran = run(export)
        self.assertEqual((ran.returncode, sorted(into.iterdir())), (2, before), ran.stderr)
        self.assertIn("into has an earlier export (cut-0001.json): name another directory, or take that away", ran.stderr)

    def test_a_refused_export_leaves_a_directory_that_was_there(self):
        """It may be one that others can't read."""
        odd, into = self.room / "device1" / "files" / "zz pipe", self.temporary / "into"
        os.mkfifo(odd)
        self.addCleanup(odd.unlink)
        into.mkdir(0o700)
        ran = run([self.program, "export", *(word for home in self.homes for word in ("--home", home)), "--into", into, "--strict"])
        self.assertEqual((ran.returncode, into.exists()), (2, True), ran.stderr)

    def test_documents_go_into_directories_alone(self):
        """What else is there is told before any file is hashed."""
        into = self.temporary / "into"
        for make, told in ((into.touch, "into is no directory: name one"), (lambda: into.symlink_to("nothing"), "into is a symlink to nothing: name a directory")):
            make()
            ran = run([self.program, "export", *self.parts, "--into", into])
            into.unlink()
            self.assertEqual(ran.returncode, 2, ran.stderr)
            self.assertIn(told, ran.stderr)
            self.assertNotIn("device", ran.stderr)

    def test_a_signal_while_syncaudit_answers_ends_it_too(self):
        program, _ = self.waiting_auditor()
        process = self.start("check", *(word for home in self.homes for word in ("--home", home)), "--syncaudit", program)
        asked = self.temporary / "asked"
        wait_until("syncaudit is asked", lambda: asked.exists() and asked.read_text().endswith("\n"))
        process.send_signal(signal.SIGTERM)
        self.assertEqual(process.wait(SECONDS_TO_WAIT), 128 + signal.SIGTERM)
        self.assertEqual(list(self.temporary.glob("syncthing-audit-*")), [])
        for number in asked.read_text().split():
            wait_until(f"process {number} has ended", lambda number=number: has_ended(int(number)))

    def on_a_full_disk(self, size, script):
        """What a shell's lines write and their status, where 'disk' is a file system of this size."""
        disk = self.temporary / "disk"
        disk.mkdir()
        words = ["unshare", "--user", "--map-root-user", "--mount", "sh", "-c"]
        if run([*words, f"mount -t tmpfs -o size={size} none {disk}"]).returncode:
            self.skipTest("unshare or mount isn't allowed here, so there is no full disk")
        return run([*words, f"mount -t tmpfs -o size={size} none {disk} && cd {disk} && {script}"])

    def test_a_part_on_a_full_disk(self):
        """The status says that it can't be written; a part that stood there before stays as it was."""
        ran = self.on_a_full_disk("64k", f"echo old > one.part; {self.program} part --home {self.homes[0]} -o one.part; echo $?; ls -A; cat one.part")
        self.assertEqual(ran.stdout.split(), ["5", "one.part", "old"], ran.stderr)
        self.assertIn("write one.part: no space left on device", ran.stderr)

    def test_documents_on_a_full_disk(self):
        ran = self.on_a_full_disk("64k", f"{self.program} export {self.parts[0]} {self.parts[1]} --into documents; echo $?; ls -A")
        self.assertEqual(ran.stdout.split(), ["5"], ran.stderr)
        self.assertIn("no space left on device", ran.stderr)

    def test_no_room_for_the_index(self):
        ran = self.on_a_full_disk("64k", f"TMPDIR=. {self.program} part --home {self.homes[0]} -o {self.temporary}/one.part; echo $?; ls -A")
        self.assertEqual(ran.stdout.split(), ["2"], ran.stderr)
        self.assertRegex(ran.stderr, r"refused: the index can't be copied to \. \(TMPDIR may name another directory\): it takes [0-9.]+ MB, and 0\.1 MB is free there")
        self.assertFalse((self.temporary / "one.part").exists())

    def test_what_cannot_be_written_is_never_done(self):
        with open("/dev/full", "wb") as full:
            for words in (["check", *self.parts, "--syncaudit", auditor()], ["part", "--home", self.homes[0], "-o", "-"],
                          ["part", "--home", self.homes[0], "-o", "/dev/full"], ["export", *self.parts, "--into", "/proc/documents"], ["--help"]):
                ran = subprocess.run([self.program, *words], stdout=full, stderr=subprocess.PIPE, timeout=SECONDS_TO_WAIT, text=True)
                self.assertEqual(ran.returncode, 5, ran.stderr)
                self.assertRegex(ran.stderr, "no space left on device|/proc/documents: no such file")

    def test_a_folder_that_is_not_there(self):
        """One kind of error has one status and one text, whichever command tells it."""
        for words in (["part", "--home", self.homes[0], "-o", "-"], ["check", *self.parts, "--syncaudit", auditor()],
                      ["check", "--home", self.homes[0], "--syncaudit", auditor()], ["export", *self.parts]):
            ran = run([self.program, *words, "--folder", "pics"])
            self.assertEqual((ran.returncode, ran.stdout), (2, ""))
            self.assertIn("refused: no folder here has the id pics: the only one is docs", ran.stderr)


def take_signals():
    """Has a process take the signals that it may inherit as ignored, from nohup or from a shell's background."""
    for number in SIGNALS:
        signal.signal(number, signal.SIG_DFL)


def has_ended(number):
    """Whether a process runs no more."""
    try:
        return Path(f"/proc/{number}/stat").read_text().rpartition(")")[2].split()[0] == "Z"
    except (FileNotFoundError, ProcessLookupError):
        return True


if __name__ == "__main__":
    main()
