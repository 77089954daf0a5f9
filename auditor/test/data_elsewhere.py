#!/usr/bin/env python3
"""The audit of a real device whose Syncthing has its database apart from its configuration (--config and --data).

    auditor/test/data_elsewhere.py
"""

import os
import re
import shutil
import time

from exporting import Exporting, main, run
from syncthing import version_of, wait_until_in_step

INDEX = "index-v0.14.0.db"
DAYS_AGO = time.time() - 3 * 24 * 60 * 60


class DataElsewhere(Exporting):
    """Two devices. The second one's database is in another directory."""

    @classmethod
    def stop(cls):
        """Moves the database once the device is stopped for the first time."""
        super().stop()
        cls.two.data = cls.room / "two" / "data"
        if not cls.two.data.exists():
            cls.two.data.mkdir()
            (cls.two.home / INDEX).rename(cls.two.data / INDEX)

    @classmethod
    def device_numbers(cls):
        return {}

    def part_of_two(self, *words):
        """Makes the part of the second device."""
        path = self.room / "elsewhere.part"
        return path, run([self.program, "part", "--home", self.two.home, "-o", path, *words])

    def test_a_home_without_a_database_is_refused_with_the_flag(self):
        for ran in (self.part_of_two()[1], self.check("--strict"), self.part_of_two("--begin")[1]):
            self.assertEqual(ran.returncode, 2, ran.stderr)
            self.assertIn(f"{self.two.home}: no index {INDEX}", ran.stderr)
            self.assertIn("name that behind the home as --data DIR: 'syncthing --paths' says where it is, with the same --home, --config and --data", ran.stderr)

    def test_a_part_with_the_database_named(self):
        path, ran = self.part_of_two("--data", self.two.data)
        self.assertEqual(ran.returncode, 0, ran.stderr)
        self.assertEqual(self.check_parts([self.part(self.one), path]).stdout.splitlines()[0], "settled")

    def test_homes_with_the_database_named(self):
        """'check' and 'export' read the second home's database where the flag behind it says it is, and the first one's at its home."""
        homes = ["--home", self.one.home, "--home", self.two.home, "--data", self.two.data]
        ran = run([self.program, "check", *homes, "--lines", "--syncaudit", self.auditor])
        self.assertEqual((ran.returncode, ran.stdout.splitlines()[:1]), (0, ["settled"]), ran.stderr)
        documents = self.room / "documents"
        ran = run([self.program, "export", *homes, "--into", documents])
        self.assertEqual((ran.returncode, (documents / "cut-0001.json").exists()), (0, True), ran.stderr)
        ran = run([self.program, "check", "--home", self.one.home, "--data", self.two.data, "--home", self.two.home, "--strict", "--syncaudit", self.auditor])
        self.assertEqual(ran.returncode, 2)
        self.assertIn(f"{self.two.home}: no index {INDEX}", ran.stderr)

    def run_on(self, *home):
        """Audits the devices while they run, the second one by this home."""
        return run([self.program, "run", self.one.home, *home, "--still", "0", "--lines", "--syncaudit", self.auditor])

    def test_a_device_that_runs(self):
        """It says where its database is. One of 1.19 doesn't, and is refused before any file is hashed, unless that is named."""
        self.start()
        try:
            refused = self.part_of_two("--data", self.two.data)[1]
            look = self.part_of_two("--begin", "--data", self.two.data)[1]
            named = self.run_on(self.two.home, "--data", self.two.data)
            ran = self.run_on(self.two.home, "--strict")
        finally:
            self.stop()
        self.assertEqual((refused.returncode, look.returncode), (2, 0), look.stderr)
        self.assertIn("Syncthing runs on ", refused.stderr)
        self.assertEqual((named.returncode, named.stdout.splitlines()[:1]), (0, ["settled"]), named.stderr)
        if version_of(self.two.program).startswith("syncthing v1.19"):
            self.assertEqual((ran.returncode, ran.stdout), (2, ""))
            self.assertIn(f"{self.two.home}: its command ended with exit status 2: syncthing-audit: Syncthing can't be asked where its database is: "
                          "this Syncthing doesn't say it, as 1.19 doesn't; ", ran.stderr)
            self.assertIn("name that behind the home as --data DIR", ran.stderr)
            self.assertNotIn("look", ran.stderr)
        else:
            self.assertEqual((ran.returncode, ran.stdout.splitlines()[:1]), (0, ["settled"]), ran.stderr)


class OldIndex(Exporting):
    """Two devices. An old index is still beside the second one's configuration, and its Syncthing writes to one elsewhere."""

    note = "If Syncthing was started there since then, it has its database elsewhere, and this answer isn't about that: name it as --data DIR"

    @classmethod
    def setUpClass(cls):
        super().setUpClass()
        cls.two.data = cls.room / "two" / "data"
        cls.two.data.mkdir()
        shutil.copytree(cls.two.home / INDEX, cls.two.data / INDEX)
        for path in (cls.two.home / INDEX).iterdir():
            os.utime(path, (DAYS_AGO, DAYS_AGO))
        cls.two.start()
        (cls.two.files / "text").write_text("hello again")
        cls.two.scan()
        cls.two.stop()
        cls.homes = ["--home", cls.one.home, "--home", cls.two.home]

    def told(self, *words):
        """What a person reads of both devices."""
        ran = run([self.program, "check", *words, "--syncaudit", self.auditor])
        return ran.returncode, " ".join(ran.stdout.split())

    def test_the_answer_says_that_an_index_may_be_old(self):
        status, told = self.told(*self.homes)
        self.assertEqual((status, told.count(self.note)), (1, 1), told)
        self.assertIn("changed on the disk since the last scan", told)
        self.assertIn(f"maybe an old index: that of {self.two.id[:7]} was written last 20", told)
        parts = [self.room / "one.part", self.room / "two.part"]
        ran = [run([self.program, "part", "--home", one.home, "-o", path]) for one, path in zip(self.devices, parts)]
        self.assertEqual([one.returncode for one in ran], [0, 0])
        self.assertIn("name that as --data DIR. If config.xml was only edited, all is well", ran[1].stderr)
        self.assertNotIn("--data", ran[0].stderr)
        unsigned = r"not signed: 2 parts of .*? \(--allowed-signers FILE checks\) "
        by_parts = self.told(*parts)
        self.assertRegex(by_parts[1], unsigned)
        self.assertEqual((by_parts[0], re.sub(unsigned, "", by_parts[1])), (status, told))

    def test_the_present_index_in_a_usual_place_is_told(self):
        """config.xml is older than the old index here. The user's directory has the new one where Syncthing has it by default."""
        usual = self.room / ".local" / "share" / "syncthing"
        usual.parent.mkdir(parents=True)
        usual.symlink_to(self.two.data)
        times = (self.two.home / "config.xml").stat()
        try:
            os.utime(self.two.home / "config.xml", (DAYS_AGO - 9, DAYS_AGO - 9))
            ran = [run([self.program, "part", "--home", self.two.home, "-o", self.room / "two.part"], env={**os.environ, "HOME": str(user)})
                   for user in (self.room / "two", self.room)]
            told = self.told(self.part(self.one), self.room / "two.part")
        finally:
            os.utime(self.two.home / "config.xml", ns=(times.st_atime_ns, times.st_mtime_ns))
            usual.unlink()
        self.assertEqual([(one.returncode, "was written last" in one.stderr) for one in ran], [(0, False), (0, True)], ran)
        self.assertIn(f"{usual / INDEX} after that, ", ran[1].stderr)
        self.assertEqual((told[0], told[1].count("maybe an old index")), (1, 1), told)
        self.assertIn("and another index there after that, ", told[1])

    def test_the_database_that_is_named_is_not_doubted(self):
        status, told = self.told(*self.homes, "--data", self.two.data)
        self.assertEqual((status, told.count("maybe an old index"), told.count("changed on the disk")), (1, 0, 0), told)

    def test_what_runs_and_what_is_refused(self):
        """Syncthing says when it was started, and no file of the old index is as new. One of 1.29 also says where its database is. Once the other
        device knows more of it than its old index has, no answer is given, and the refusal tells why that may be."""
        self.start()
        self.two.scan()
        wait_until_in_step(self.one, self.two)
        try:
            words = [self.program, "run", "--still", "0", "--lines", "--strict", "--syncaudit", self.auditor, self.one.home, self.two.home]
            ran, named = run(words), run([*words, "--data", self.two.data])
            look = run([self.program, "part", "--begin", "--home", self.one.home, "-o", self.room / "look.part"])
        finally:
            self.stop()
        self.assertEqual((look.returncode, "--data" in look.stderr), (0, False), look.stderr)
        if version_of(self.two.program).startswith("syncthing v1.19"):
            self.assertEqual(ran.returncode, 2)
            self.assertIn("Syncthing runs, and it hasn't written to the index there since it was started: it has its database elsewhere", ran.stderr)
            self.assertNotIn("look", ran.stderr)
            self.assertEqual((named.returncode, named.stdout.splitlines()[:1]), (0, ["settled"]), named.stderr)
        else:
            self.assertEqual((ran.returncode, ran.stdout.splitlines()[:1], "maybe an old index" in ran.stdout), (0, ["settled"], False), ran.stderr)
        ran = run([self.program, "check", *self.homes, "--strict", "--syncaudit", self.auditor])
        self.assertEqual((ran.returncode, ran.stdout), (2, ""))
        self.assertIn(f"maybe an old index: device {self.two.id}, written 20", ran.stderr)


if __name__ == "__main__":
    main()
