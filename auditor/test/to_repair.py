#!/usr/bin/env python3
"""The audit of a real device whose Syncthing has marked its index, to be repaired at its next start.

    auditor/test/to_repair.py
"""

import json

from exporting import Exporting, main, run


class ToRepair(Exporting):
    """Two devices. By hand the second one's index gets the mark that Syncthing gives it."""

    def test_the_mark_is_told_until_syncthing_has_repaired_the_index(self):
        mark = self.two.home / "index-v0.14.0.db.needsrepair"
        mark.touch()
        lines = self.report()
        line = f"to be repaired: the index on {self.number(self.two)}"
        self.assertEqual((lines[0], lines.count(line)), ("settled", 1))
        path = self.room / "two.part"
        ran = run([self.program, "part", "--home", self.two.home, "-o", path])
        self.assertIn("is to repair it at its next start (index-v0.14.0.db.needsrepair is there)", ran.stderr)
        self.assertIn(line, self.check_parts([self.part(self.one), path]).stdout.splitlines())
        words = [word for one in self.devices for word in ("--home", one.home)]
        told = run([self.program, "check", *words, "--syncaudit", self.auditor])
        self.assertIn(f"to be repaired: the index of {self.two.id[:7]}. Syncthing found a fault in it", " ".join(told.stdout.split()))
        devices = json.loads(run([self.program, "check", *words, "--json", "--syncaudit", self.auditor]).stdout)["devices"]
        self.assertEqual({one["id"]: one.get("index_to_repair") for one in devices}, {self.one.id: None, self.two.id: True})
        self.assertTrue(mark.exists())
        self.two.start()
        self.two.stop()
        self.assertIn("Database was marked for repair", self.two.log.read_text())
        self.assertFalse(mark.exists())
        self.assertNotIn(line, self.report())


if __name__ == "__main__":
    main()
