#!/usr/bin/env python3
"""Each system call of 'part', 'check' and 'run' that may fail is made to fail, in turn, on small homes: never a wrong answer, never a torn file,
nothing left over, no process left behind, and the right status. So it is with signals and kills at random moments. What gets a name is on the disk before.

    auditor/test/faults.py               for a time, a slice of the calls; the number of commits says which
    FAULTS=all auditor/test/faults.py    all of them, which takes an hour

strace makes a call fail: the first, the second and so on of each thread.
"""

import os
import random
import re
import shutil
import signal
import subprocess
import tempfile
import time
import unittest
from collections import Counter
from concurrent.futures import ThreadPoolExecutor
from pathlib import Path

from exporting import PROGRAM, SAMPLE, auditor, go_environment, is_over, main, run
from large_folders import rot
from turn import turn

ERRORS = {"openat": "EIO", "openat2": "EIO", "read": "EIO", "pread64": "EIO", "write": "ENOSPC", "pwrite64": "ENOSPC", "fsync": "EIO", "fdatasync": "EIO",
          "ftruncate": "ENOSPC", "linkat": "EIO", "renameat": "EIO", "unlinkat": "EIO", "mkdirat": "ENOSPC", "getdents64": "EIO", "newfstatat": "EIO",
          "fstat": "EIO", "statx": "EIO", "readlinkat": "EIO", "flock": "ENOLCK", "fcntl": "EMFILE", "lseek": "EIO", "fadvise64": "EIO", "pipe2": "EMFILE",
          "dup": "EMFILE", "dup3": "EMFILE", "getrandom": "EIO", "fchmod": "EIO", "statfs": "EIO", "getxattr": "EIO", "getcwd": "EIO"}
ALL = os.environ.get("FAULTS") == "all"
SECONDS = 12  # of a slice
SECONDS_OF_A_TRY = 60
WORKERS = 2
SETTLED, NOT_SETTLED, REFUSED, FAULT, PARTIAL, CRASHED, NOT_FOUND = 0, 1, 2, 5, 6, (134, -6), 127
SIGNALS, KILLS = (270, 195) if ALL else (24, 16)


def in_turn(places):
    """All places, from the one on whose turn it is. Neighbours are far from one another in time, so that each slice has some of all kinds."""
    mixed = random.Random(1).sample(places, len(places))
    first = turn() * 40 % len(mixed)
    return mixed[first:] + mixed[:first]


# A program looks through the open files of all processes. Where it sees its own alone, each try meets the same few.
ALONE = ["unshare", "--pid", "--fork", "--mount-proc", "--kill-child", "sh", "-c", """
"$@"
status=$?
for turn in 1 2 3 4 5 6 7 8 9 10 11 12 13 14 15 16 17 18 19 20; do
    set -- /proc/[0-9]*
    [ $# = 1 ] && exit $status
    sleep 0.2
done
echo "still running: $(cat /proc/[0-9]*/cmdline | tr '\\0' ' ')" >&2
exit 99
""", "sh"]


def alone():
    """The words that have a command run where it sees no other processes, and that end with another status if it leaves one behind. None, where this user
    can't have that."""
    tried = subprocess.run([*ALONE, "true"], capture_output=True)
    return ALONE if tried.returncode == 0 else []


def calls_in(log):
    """The calls that strace noted, each on one line, in the order of their ends."""
    begun = {}
    for line in log.read_text(errors="replace").splitlines():
        thread, _, said = line.partition(" ")
        said = said.lstrip()
        if said.endswith(" <unfinished ...>"):
            begun[thread] = said.removesuffix(" <unfinished ...>")
        else:
            yield re.sub(r"^<\.\.\. \w+ resumed>", lambda _: begun.pop(thread, ""), said)


def failing(log):
    """The calls that were made to fail."""
    return [call for call in calls_in(log) if call.endswith("(INJECTED)")]


class Unreal(Exception):
    """A fault that no kernel has. As Go starts a program it reads from a pipe whether that was begun, and if reading fails it waits for the program's
    end, which waits for what Go would write. Reading from a pipe doesn't fail so."""


class Disturbed(unittest.TestCase):
    """Two homes of devices, of which one has rot, and a program without a loader."""

    @classmethod
    def setUpClass(cls):
        if is_over():
            raise unittest.SkipTest("the time is over")
        if not shutil.which("strace"):
            raise unittest.SkipTest("strace isn't installed")
        room = tempfile.TemporaryDirectory(prefix="syncthing-audit-test-")
        cls.addClassCleanup(room.cleanup)
        cls.room = Path(room.name)
        # With cgo the loader and the C library fail before the program begins.
        subprocess.run(["go", "build", "-p", "1", "-o", f"{cls.room}/", PROGRAM, SAMPLE], env={**go_environment(cls.room), "CGO_ENABLED": "0"}, check=True)
        cls.program = cls.room / PROGRAM
        # Looks go after all other work of the machine, which may take them very long.
        (cls.room / "tools").mkdir()
        (cls.room / "tools/nice").write_text('#!/bin/sh\nshift 2\nexec "$@"\n')
        (cls.room / "tools/nice").chmod(0o755)
        cls.homes = {}
        for kind in ("good", "rotten"):
            run([cls.room / "sample", "--files", "3", "--bytes", "100", cls.room / kind], check=True)
            cls.homes[kind] = [cls.room / kind / f"device{number}" / "home" for number in (1, 2)]
        rot(cls.room / "rotten/device1/files/00000/01.bin", 5)
        cls.alone = alone()
        cls.good = cls.room / "good.part"
        run([cls.program, "part", "--home", cls.homes["good"][1], "-o", cls.good], check=True)

    def setUp(self):
        if is_over():
            self.skipTest("the time is over")
        self.seen = Counter()

    def room_of_try(self):
        """A directory for one try, with one for temporary files in it, and with the file that a part is to replace."""
        made = Path(tempfile.mkdtemp(dir=self.room))
        (made / "temporary").mkdir()
        (made / "into").mkdir()
        (made / "into/one.part").write_text("before")
        return made

    def environment(self, room):
        """The environment of a try."""
        return {**os.environ, "TMPDIR": str(room / "temporary"), "PATH": f"{self.room / 'tools'}:{os.environ['PATH']}"}

    def words_of(self, command, room):
        """The command of a try."""
        rotten = self.homes["rotten"]
        return {"part": ["part", "--home", self.homes["good"][0], "-o", room / "into/one.part"],
                "check": ["check", "--home", rotten[0], "--home", rotten[1], "--lines", "--syncaudit", auditor()],
                "run": ["run", *rotten, "--still", "0", "--lines", "--syncaudit", auditor()]}[command]

    def assert_nothing_left(self, room, told, is_killed=False):
        """Nothing is left over but the file that was asked for; where the program had no time to clean up, not after the next run."""
        if is_killed:
            run([self.program, "part", "--home", self.homes["good"][1], "-o", room / "into/next.part"], check=True, env=self.environment(room))
            (room / "into/next.part").unlink()
        left = sorted(path.name for path in room.glob("temporary/*"))
        self.assertEqual((left, sorted(path.name for path in room.glob("into/*"))), ([], ["one.part"]), told)

    def assert_whole(self, room, is_done, told):
        """What stands in the part's place is what stood there, or a whole part, which is in step with the other one but for what the disk was seen to fail
        to give."""
        made = room / "into/one.part"
        if made.read_bytes() == b"before":
            self.assertFalse(is_done, told)
            return
        answer = run([self.program, "check", made, self.good, "--strict", "--lines", "--syncaudit", auditor()])
        told += answer.stdout + answer.stderr
        is_told = answer.returncode == NOT_SETTLED and "\ndamaged: " in answer.stdout or \
            answer.returncode == REFUSED and re.search("it can't be read|it changed while it was read", answer.stderr)
        self.assertTrue(answer.returncode == SETTLED or bool(is_told), told)


class Faults(Disturbed):
    """A call that fails."""

    def places(self, command):
        """Each call with each of its places, by a run without a fault."""
        room = self.room_of_try()
        log = room / "log"
        subprocess.run([*self.alone, "strace", "-f", "-qq", "-o", log, "-e", f"trace={','.join('?' + call for call in ERRORS)}", self.program,
                        *self.words_of(command, room)], env=self.environment(room), capture_output=True, timeout=300)
        counted = Counter(re.findall(r"^(\d+) +(\w+)\(", log.read_text(errors="replace"), re.MULTILINE))
        most = Counter()
        for (_, call), count in counted.items():
            most[call] = max(most[call], count)
        self.assertTrue({"openat", "read", "write"} <= set(most), most)
        return [(call, place) for call in sorted(most) if call in ERRORS for place in range(1, most[call] + 1)]

    def ran(self, command, call, place):
        """Runs a command with a call that fails; gives the room, how it ended, and words for a failure."""
        room = self.room_of_try()
        inject = ["-e", f"trace={call}", "-e", f"inject={call}:error={ERRORS[call]}:when={place}"]
        process = subprocess.Popen([*self.alone, "strace", "-f", "--seccomp-bpf", "-qq", "-o", room / "log", *inject, self.program,
                                    *self.words_of(command, room)], text=True, errors="replace", stdout=subprocess.PIPE, stderr=subprocess.PIPE,
                                   env=self.environment(room), start_new_session=True)
        try:
            output, log = process.communicate(timeout=SECONDS_OF_A_TRY)
        except subprocess.TimeoutExpired:
            os.killpg(process.pid, signal.SIGKILL)
            process.communicate()
            if call == "read":
                raise Unreal(f"{command}, {call} {place}") from None
            raise AssertionError(f"{command}, {call} {place}: it hangs") from None
        failed = failing(room / "log")
        if not failed:
            self.seen["not met"] += 1
        if any(one.startswith("write(2,") for one in failed):
            log += "(its standard error failed)"
        ended = subprocess.CompletedProcess([], process.returncode, output, log)
        self.seen[ended.returncode] += 1
        return room, ended, f"{command}, {call} {place}: status {ended.returncode}: {ended.stderr[-1500:]}\n{ended.stdout[-500:]}\n"

    def each(self, command, check):
        """Has each place tried, or as many as there is time for, and tells all faults at once."""
        places, until, faults = self.places(command), time.monotonic() + SECONDS, []

        def one(place):
            if not ALL and time.monotonic() > until or len(faults) > 20:
                return 0
            try:
                check(*place)
            except Unreal:
                self.seen["unreal"] += 1
            except AssertionError as fault:
                faults.append(str(fault))
            return 1

        with ThreadPoolExecutor(WORKERS) as workers:
            tried = sum(workers.map(one, in_turn(places)))
        print(f"NOTE: {tried} of {len(places)} places of '{command}' were made to fail: statuses {dict(self.seen)}", flush=True)
        self.assertEqual(len(faults), 0, "\n\n".join(faults))
        self.assertGreater(tried, 0)

    def test_part(self):
        def check(call, place):
            room, ended, told = self.ran("part", call, place)
            self.assertIn(ended.returncode, (SETTLED, REFUSED, FAULT, *CRASHED), told)
            self.assertTrue(ended.returncode == SETTLED or ended.stderr, told)
            self.assert_whole(room, ended.returncode == SETTLED, told)
            self.assert_nothing_left(room, told, call == "unlinkat" or ended.returncode in CRASHED)
            shutil.rmtree(room)

        self.each("part", check)

    def check_answer(self, ended, told):
        """The rot is told, or the answer says that it was left out where that rot is, or there is no answer, with a reason. A name of whose temporary file the
        disk fails to say that it isn't there counts as being received."""
        self.assertIn(ended.returncode, (NOT_SETTLED, REFUSED, FAULT, PARTIAL, NOT_FOUND, *CRASHED), told)
        if ended.returncode == NOT_SETTLED:
            self.assertRegex(ended.stdout, r"StoreDiffers docs 00000/01.bin|\ndamaged: ", told)
        elif ended.returncode == PARTIAL:
            self.assertRegex(ended.stdout, r"^settled as far as audited\n", told)
            self.assertRegex(ended.stdout, r"\n(left out: (folder docs, device device1: |docs 00000/01\.bin on )|in motion: docs 00000/01\.bin on \d+: receiving\n)", told)
        elif ended.returncode != FAULT:
            self.assertEqual(ended.stdout, "", told)
        self.assertTrue(ended.returncode == NOT_SETTLED or ended.stderr, told)

    def test_check(self):
        def check(call, place):
            room, ended, told = self.ran("check", call, place)
            self.check_answer(ended, told)
            self.assert_nothing_left(room, told, call == "unlinkat" or ended.returncode in CRASHED)
            shutil.rmtree(room)

        self.each("check", check)

    def test_run(self):
        def check(call, place):
            room, ended, told = self.ran("run", call, place)
            self.check_answer(ended, told)
            self.assert_nothing_left(room, told, True)  # a look that is ended may be killed
            shutil.rmtree(room)

        self.each("run", check)


class Durable(Disturbed):
    """What gets a name is on the disk before, and its name is after: a machine that goes down leaves no empty file in the place of a whole one."""

    CALLS = ("write", "pwrite64", "fsync", "fdatasync", "syncfs", "linkat", "rename", "renameat", "renameat2")
    TOKEN = "{}:00112233445566778899aabbccddeeff"

    def assert_durable(self, words, put):
        """Has a command run, and checks in which order it writes a file, has it on the disk, gives it a name, and has that on the disk."""
        room, log = put.parent, self.room_of_try() / "log"
        ran = run(["strace", "-f", "-qq", "-y", "-o", log, "-e", f"trace={','.join('?' + call for call in self.CALLS)}", *words],
                  env={**os.environ, "TMPDIR": str(log.parent)})
        self.assertEqual(ran.returncode, SETTLED, ran.stderr)
        seen = []
        for said in calls_in(log):
            found = re.match(r"(\w+)\((?:\d+<([^>]*)>)?(.*) = \d", said)
            if not found:
                continue
            call, path, rest = found.groups()
            path = path or ""
            if call.startswith(("link", "rename")) and f'"{put}"' in rest:
                seen.append("named")
            elif call in ("write", "pwrite64") and path.startswith(f"{room}/"):
                seen.append("written")
            elif call in ("fsync", "fdatasync", "syncfs") and path == str(room):
                seen.append("name kept")
            elif call in ("fsync", "fdatasync", "syncfs") and path.startswith(f"{room}/"):
                seen.append("kept")
        self.assertIn("named", seen, log.read_text(errors="replace"))
        named = len(seen) - 1 - seen[::-1].index("named")
        written = max(place for place in range(named) if seen[place] == "written")
        self.assertIn("kept", seen[written:named], seen)
        return seen[named:]

    def test_a_new_part(self):
        room = self.room_of_try()
        self.assertIn("name kept", self.assert_durable([self.program, "part", "--home", self.homes["good"][0], "-o", room / "into/new.part"], room / "into/new.part"))

    def test_a_part_in_place_of_another(self):
        room = self.room_of_try()
        self.assertIn("name kept", self.assert_durable([self.program, *self.words_of("part", room)], room / "into/one.part"))

    def test_exported_documents(self):
        room, both = self.room_of_try(), self.homes["good"]
        words = [self.program, "export", "--home", both[0], "--home", both[1], "--into", room / "into/cuts"]
        self.assertIn("name kept", self.assert_durable(words, room / "into/cuts/cut-0001.json"))

    def test_the_key_of_an_observer(self):
        room = self.room_of_try()
        self.assert_durable([self.program, "observe", "--init", "--home", room / "into/observer"], room / "into/observer/cert.pem")

    def test_the_part_of_disks(self):
        room, files = self.room_of_try(), self.homes["good"][0].parent / "files"
        subprocess.run(["go", "build", "-p", "1", "-o", f"{self.room}/", f"{PROGRAM}/ondisk"], env={**go_environment(self.room), "CGO_ENABLED": "0"}, check=True)
        device = "7777777-777777N-7777777-777777N-7777777-777777N-7777777-77777Q4"
        for number, program in enumerate(([self.program, "disk"], [self.room / "ondisk"])):
            made = room / f"into/{number}.part"
            self.assert_durable([*program, "--after", self.TOKEN.format(device), "-o", made, f"docs={files}"], made)


class Interrupted(Disturbed):
    """A signal, or a kill, at a random moment."""

    def whole_time(self, command):
        """How long a command takes that nobody ends."""
        room, began = self.room_of_try(), time.monotonic()
        run([self.program, *self.words_of(command, room)], env=self.environment(room))
        return time.monotonic() - began

    def end_at_random(self, command, numbers, tries):
        """Ends a command by a signal, often, each time at another moment of its run and a little after."""
        draw, whole, until = random.Random(), self.whole_time(command), time.monotonic() + SECONDS
        for number in range(tries):
            if not ALL and time.monotonic() > until:
                break
            room, chosen, wait = self.room_of_try(), draw.choice(numbers), draw.uniform(0, 1.1 * whole)
            process = subprocess.Popen([self.program, *self.words_of(command, room)], env=self.environment(room), stdout=subprocess.PIPE,
                                       stderr=subprocess.PIPE, text=True, errors="replace")
            time.sleep(wait)
            process.send_signal(chosen)
            output, log = process.communicate(timeout=120)
            status = process.returncode
            self.seen[status] += 1
            told = f"{command}, {chosen.name} after {wait:.3f} s of {whole:.3f} s: status {status}: {log[-500:]}\n{output[-500:]}\n"
            usual = SETTLED if command == "part" else NOT_SETTLED
            self.assertIn(status, (usual, -chosen, 128 + chosen), told)
            if command == "part":
                self.assert_whole(room, status == SETTLED, told)
            elif status == usual:
                self.assertIn("StoreDiffers docs 00000/01.bin", output, told)
            self.assert_nothing_left(room, told, chosen == signal.SIGKILL or command == "run")
            shutil.rmtree(room)
        print(f"NOTE: '{command}' was ended {number + 1} times by {', '.join(one.name for one in numbers)}: statuses {dict(sorted(self.seen.items()))}", flush=True)

    def test_signals_to_part(self):
        self.end_at_random("part", (signal.SIGTERM, signal.SIGINT, signal.SIGHUP), SIGNALS // 3)

    def test_signals_to_check(self):
        self.end_at_random("check", (signal.SIGTERM, signal.SIGINT, signal.SIGHUP), SIGNALS // 3)

    def test_signals_to_run(self):
        self.end_at_random("run", (signal.SIGTERM, signal.SIGINT, signal.SIGHUP), SIGNALS // 3)

    def test_kills_of_part(self):
        self.end_at_random("part", (signal.SIGKILL,), KILLS // 3)

    def test_kills_of_check(self):
        self.end_at_random("check", (signal.SIGKILL,), KILLS // 3)

    def test_kills_of_run(self):
        self.end_at_random("run", (signal.SIGKILL,), KILLS // 3)


if __name__ == "__main__":
    main()
