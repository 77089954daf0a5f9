#!/usr/bin/env python3
"""What stands for the program in the tests of real devices answers each word that those ask."""

import os
import subprocess
import sys
import unittest
from pathlib import Path

TOP = Path(__file__).resolve().parent.parent
DOCUMENT = TOP / "examples/old-file-on-its-way.json"
STREAM = TOP / "examples/rows/same-bytes-concurrent-versions.jsonl"


class StandIn(unittest.TestCase):
    def asked(self, *words, **environment):
        """What it writes for a stream of rows, and its status."""
        with STREAM.open("rb") as stream:
            done = subprocess.run([sys.executable, TOP / "auditor/test/stand_in.py", "rows", *words], stdin=stream, capture_output=True, env={**os.environ, **environment})
        return done.stdout.decode(), done.returncode

    def test_a_stream_of_rows_has_an_answer(self):
        counts, differs = "folder docs: 1 names, 0 deleted, 2 devices", "VersionDiffers docs hello on 2\n"
        for words, answer in {("--firm",): (f"{differs}not firm: {differs}{counts}\n", 1), (): (f"settled\n{counts}\n", 0), ("--explain",): (f"settled\n{counts}\n", 0),
                              ("--explain", "--firm"): (f"{differs}ViewNotBelow docs hello on 1\nnot firm: {differs}{counts}\n", 1),
                              ("--converge",): (f"NothingPrevails docs hello\nnot converging: NothingPrevails docs hello\n{counts}, 2 pairs not yet at the winner\n", 1)}.items():
            with self.subTest(words):
                self.assertEqual(self.asked(*words), answer)

    def test_an_older_program_knows_no_rows(self):
        for words in ((), ("--firm",), ("--explain", "--firm"), ("--converge",)):
            with self.subTest(words):
                self.assertEqual(self.asked(*words, OLDER="1"), ("", 3))

    def test_each_word_has_an_answer(self):
        for words, first in (("check", b"not settled: FlightAhead docs a.txt on 3"), ("check --certify", b"not settled: FlightAhead docs a.txt on 3"),
                             ("firm", b"not firm: FlightAhead docs a.txt on 3"), ("converge", b"converging"), ("explain", b"FlightAhead docs a.txt on 3")):
            with self.subTest(words), DOCUMENT.open("rb") as document:
                done = subprocess.run([sys.executable, TOP / "auditor/test/stand_in.py", *words.split()], stdin=document, capture_output=True)
                self.assertEqual(done.stdout.splitlines()[:1], [first], done.stderr)


if __name__ == "__main__":
    unittest.main()
