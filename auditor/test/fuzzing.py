#!/usr/bin/env python3
"""Go's fuzz targets: each has 10,000 executions, for which it needs less than a minute of a processor.

    auditor/test/fuzzing.py
"""

import contextlib
import os
import re
import resource
import signal
import subprocess
import tempfile
import unittest
from pathlib import Path

from exporting import PROGRAM, SOURCES, go_environment, is_over, main, run

EXECUTIONS = 10_000
SECONDS_OF_PROCESSOR = 60
# A machine that does much else takes longer by the clock. What hangs in one execution is ended by the target itself.
SECONDS = 600
SECONDS_OF_GRACE = 10
PACKAGES = {"FuzzParts": "audit", "FuzzPackedParts": "part", "FuzzJoins": "audit", "FuzzLooks": "audit", "FuzzReplies": "ask", "FuzzStreams": "ask",
            "FuzzRecord": "wire", "FuzzPatterns": "stignore"}


def targets():
    """Each target in the sources, with its package."""
    return {name: path.parent.name for path in (SOURCES / "src" / PROGRAM).rglob("*_test.go")
            for name in re.findall(r"^func (Fuzz\w+)\(", path.read_text(), re.MULTILINE)}


def executions(said):
    """How often a target ran, by what Go said last."""
    return max((int(number) for number in re.findall(r"execs: (\d+)", said)), default=0)


def end(process):
    """Ends a process and its children: by SIGINT, as Go has it, and by SIGKILL where that isn't enough. Gives what it said."""
    for number in (signal.SIGINT, signal.SIGKILL):
        with contextlib.suppress(ProcessLookupError):
            os.killpg(process.pid, number)
        with contextlib.suppress(subprocess.TimeoutExpired):
            return process.communicate(timeout=SECONDS_OF_GRACE)[0]
    raise AssertionError(f"process {process.pid} isn't ended by SIGKILL")


def said_by(words, room, seconds=SECONDS):
    """Runs a target; gives whether it had to be ended, what it said, and its status."""
    process = subprocess.Popen(words, cwd=room, stdout=subprocess.PIPE, stderr=subprocess.STDOUT, text=True, errors="replace", start_new_session=True)
    try:
        return False, process.communicate(timeout=seconds)[0], process.returncode
    except subprocess.TimeoutExpired:
        return True, end(process), process.returncode


class Fuzzing(unittest.TestCase):
    """Parts, joins, looks, replies, records and patterns that are changed at random: refused with a reason or audited, without a crash and without a hang."""

    @classmethod
    def setUpClass(cls):
        if is_over():
            raise unittest.SkipTest("the time is over")
        room = tempfile.TemporaryDirectory(prefix="syncthing-audit-test-")
        cls.addClassCleanup(room.cleanup)
        cls.room = Path(room.name)
        for package in sorted(set(PACKAGES.values())):
            run(["go", "test", "-c", "-p", "1", "-fuzz", ".", "-o", cls.room / package, f"{PROGRAM}/{package}"], env=go_environment(cls.room), check=True)

    def setUp(self):
        if is_over():
            self.skipTest("the time is over")

    def fuzz(self, name):
        """Runs a target in a directory of its own, where a find stays, and not in the sources. No find is minimised: that takes all the time."""
        room = Path(tempfile.mkdtemp(dir=self.room))
        before = resource.getrusage(resource.RUSAGE_CHILDREN)
        hangs, said, status = said_by([self.room / PACKAGES[name], "-test.run", "-", "-test.fuzz", f"^{name}$", "-test.fuzztime", f"{EXECUTIONS}x",
                                       "-test.fuzzminimizetime", "1x", "-test.parallel", "1", "-test.fuzzcachedir", room / "corpus"], room)
        after = resource.getrusage(resource.RUSAGE_CHILDREN)
        finds = "".join(f"\n{path.name}:\n{path.read_text()}" for path in room.glob("testdata/fuzz/*/*"))
        self.assertEqual((hangs, status, finds), (False, 0, ""), said[-5000:])
        self.assertGreaterEqual(executions(said), EXECUTIONS, said[-5000:])
        self.assertLess(after.ru_utime + after.ru_stime - before.ru_utime - before.ru_stime, SECONDS_OF_PROCESSOR)

    def test_parts(self):
        self.fuzz("FuzzParts")

    def test_packed_parts(self):
        self.fuzz("FuzzPackedParts")

    def test_joins(self):
        self.fuzz("FuzzJoins")

    def test_looks(self):
        self.fuzz("FuzzLooks")

    def test_replies(self):
        self.fuzz("FuzzReplies")

    def test_streams(self):
        self.fuzz("FuzzStreams")

    def test_records(self):
        self.fuzz("FuzzRecord")

    def test_patterns(self):
        self.fuzz("FuzzPatterns")

    def test_each_target_has_a_case(self):
        self.assertEqual(targets(), PACKAGES)

    def test_a_target_that_heeds_no_signal(self):
        """It is killed, with its children, and what it said stays."""
        script = 'trap "" INT; echo "execs: 17"; sleep 600 & wait; sleep 600'
        hangs, said, status = said_by(["sh", "-c", script], self.room, seconds=1)
        self.assertEqual((hangs, executions(said), status), (True, 17, -signal.SIGKILL))


if __name__ == "__main__":
    main()
