#!/usr/bin/env python3
"""What parts of real devices tell of paths.

    auditor/test/paths.py
"""

import json
import subprocess
import sys

from answers import SCHEMA, STATUS_MISSING
from exporting import Exporting, main, run, shown


class Paths(Exporting):
    """Two devices in step."""

    def part_with(self, *words):
        """A part of the second device, and its text."""
        path = self.room / "with.part"
        run([self.program, "part", "--home", self.two.home, "-o", path, *words], check=True)
        return path, "".join(shown(self.program, path))

    def assert_tells(self, words, known):
        """The answer tells these paths of both devices, and keeps to its schema."""
        ran = run([self.program, *words, "--json", "--syncaudit", self.auditor])
        folder, = json.loads(ran.stdout)["folders"]
        self.assertEqual({one["device"]: one.get("path") for one in folder["devices"]}, dict(zip((self.one.id, self.two.id), known)), words)
        checked = subprocess.run([sys.executable, SCHEMA], input=ran.stdout, capture_output=True, text=True)
        self.assertIn(checked.returncode, (0, STATUS_MISSING), checked.stdout)

    def test_a_part_has_paths_on_request_alone(self):
        for words in ((), ("--begin",), ("--names", "text")):
            self.assertNotIn(str(self.room), self.part_with(*words)[1], words)
            self.assertIn(str(self.two.files), self.part_with(*words, "--paths")[1], words)

    def test_an_answer_tells_the_paths_that_it_knows(self):
        own, paths = self.part(self.one), [str(one.files) for one in self.devices]
        self.assert_tells(["check", own, self.part_with()[0]], [None, None])
        self.assert_tells(["check", own, self.part_with("--paths")[0]], [None, paths[1]])
        self.assert_tells(["check", "--home", self.one.home, "--home", self.two.home], paths)
        self.assert_tells(["run", self.one.home, self.two.home, "--still", "0"], paths)


if __name__ == "__main__":
    main()
