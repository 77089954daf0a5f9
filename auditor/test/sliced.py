#!/usr/bin/env python3
"""Slices of the names of real Syncthing devices on loopback: all together are what a whole audit is.

    auditor/test/sliced.py
"""

import gzip
import hashlib
import json
import os
import re

from exporting import IN_STEP, Exporting, main, put_replies, run, shown, without_firmness
from live_looks import Live, rot
from syncthing import FOLDER

SLICES = 7


def slice_of(name):
    """The slice of a name in the folder, as the man page has it."""
    first = hashlib.sha256(FOLDER.encode() + b"\0" + name.encode()).digest()[:8]
    return 1 + int.from_bytes(first, "big") % SLICES


def words_of(number):
    """The flag for a slice."""
    return "--slice", f"{number}/{SLICES}"


def fill(files):
    """Makes names of each kind: directories inside each other, with files, symlinks and names that begin alike."""
    for number in range(60):
        path = files / f"{number % 4}" / f"of {number % 3}" / f"{number}.bin"
        path.parent.mkdir(parents=True, exist_ok=True)
        path.write_bytes(bytes([number]) * (1000 + number))
    (files / "link").symlink_to("0/of 0/0.bin")
    (files / "doomed").write_text("doomed")


class Slices(Exporting):
    """Two devices in step, stopped."""

    @classmethod
    def synchronise(cls):
        fill(cls.one.files)
        cls.scan_and_wait()
        (cls.one.files / "doomed").unlink()
        cls.scan_and_wait()

    def lines_of(self, path):
        """The head of a part, its names and its end."""
        lines = [json.loads(line) for line in shown(self.program, path)]
        names = [line["name"] for line in lines[1:] if "name" in line]
        return lines[0], {one["name"]: one for one in names}, lines[-1]["end"]

    def faults(self, *words):
        """What an audit finds wrong: the lines with a reason and a name, and what is said beside them, but of what comes first on a device; how many
        names it is of."""
        lines = without_firmness(self.check(*words).stdout.splitlines())
        counts = [int(number) for number in re.findall(r"\d+", lines[1])[:2]]
        return [line for line in lines[2:] if not line.startswith(("not asked for: ", "first: "))], counts

    def test_each_name_is_in_one_slice(self):
        """Names that are on the disk alone are, too, as are those that an index has alone. The slice is that of the page. Of a slice no
        more is hashed than its files."""
        new = self.one.files / "0" / "new"
        new.write_text("no scan has seen it")
        try:
            _, whole, _ = self.lines_of(self.part(self.one))
            self.assertEqual(len(whole), 60 + 4 + 12 + len({"link", "doomed", "0/new"}))
            names = []
            for number in range(1, SLICES + 1):
                head, some, end = self.lines_of(self.part(self.one, *words_of(number)))
                self.assertEqual((head["version"], head["slice"], head["slices"], head["folders"][0]["indexed"]), (3, number, SLICES, len(whole) - 1))
                for name, one in some.items():
                    self.assertEqual(slice_of(name), number, name)
                    self.assertEqual(one, whole[name])
                self.assertEqual(end["bytes"], sum(one["disk"]["size"] for one in some.values() if one.get("disk", {}).get("contents")))
                names += some
            self.assertEqual(sorted(names), sorted(whole))
        finally:
            new.unlink()

    def test_all_slices_find_what_a_whole_audit_finds(self):
        """Other bytes on either device, a longer file, one that is missing, one that is back, one that no scan has seen, another mode."""
        files, others = self.two.files, []
        new, back, longer, gone = files / "1" / "new", files / "doomed", files / "2/of 2/50.bin", files / "3/of 1/31.bin"
        texts = {path: path.read_bytes() for path in (longer, gone)}
        times = {path: path.stat() for path in (longer, gone)}
        with rot(self.one.files / "0/of 0/12.bin", 5), rot(files / "0/of 1/40.bin", 7):
            new.write_text("new")
            back.write_text("back")
            longer.write_bytes(texts[longer] + b"more")
            gone.unlink()
            (files / "0/of 0/0.bin").chmod(0o600)
            try:
                whole, counts = self.faults()
                sums = [0, 0]
                for number in range(1, SLICES + 1):
                    some, few = self.faults(*words_of(number))
                    for line in some:
                        if line.startswith("StoreDiffers "):
                            self.assertEqual(slice_of(line.split()[2].replace("\\x20", " ")), number, line)
                    others += some
                    sums = [one + more for one, more in zip(sums, few)]
            finally:
                new.unlink()
                back.unlink()
                (files / "0/of 0/0.bin").chmod(0o644)
                for path, text in texts.items():
                    path.write_bytes(text)
                    path.chmod(times[path].st_mode & 0o7777)
                    self.set_times(path, times[path])
        self.assertEqual((sorted(others), sums), (sorted(whole), counts))
        self.assertEqual({line.split()[0] for line in whole}, {"NotWinner", "StoreDiffers", "StoreUnclean", "no", "permissions:"})
        self.assertEqual(len([line for line in whole if line.startswith("StoreDiffers ")]), 5)
        self.assertEqual(self.check().returncode, 0)

    @staticmethod
    def set_times(path, about):
        """Gives a file the times that it had."""
        os.utime(path, ns=(about.st_atime_ns, about.st_mtime_ns))

    def test_rot_is_found_in_its_slice_alone(self):
        """The other slices say that they didn't look there."""
        name = "2/of 0/30.bin"
        with rot(self.two.files / name, 9):
            for number in range(1, SLICES + 1):
                parts = [self.part(device, *words_of(number)) for device in self.devices]
                for words, good in (((), 6), (words_of(number), 0)):
                    ran = run([self.program, "check", *parts, *words, "--syncaudit", self.auditor])
                    is_its_own = slice_of(name) == number
                    self.assertEqual(ran.returncode, 1 if is_its_own else good, ran.stdout)
                    self.assertEqual("other bytes on the disk" in ran.stdout, is_its_own)
                    told = "not audited" if words == () else "not asked for"
                    self.assertRegex(ran.stdout, rf"\n{told}: names outside slice {number} of {SLICES}.* \(in all: 78 names, by each folder's fullest index\)\n")

    def test_parts_that_do_not_go_together(self):
        whole, first, second = (self.room / f"{name}.part" for name in ("whole", "first", "second"))
        for path, words in ((whole, ()), (first, words_of(1)), (second, words_of(2))):
            self.part(self.two, *words).rename(path)
        mine = self.part(self.one, *words_of(1))
        said = "slice 1 of 7 of all names"
        for other, words, why in ((second, (), f"has slice [12] of 7 of all names, and .* has slice [12] of 7 of all names: make all parts with the same --slice"),
                                  (whole, (), "has all names(:|, and).* make all parts with the same --slice"),
                                  (first, words_of(2), f"one.part has {said}: make it anew with --slice 2/7"),
                                  (first, ("--slice", "1/6"), f"one.part has {said}: make it anew with --slice 1/6"),
                                  (first, ("--names", "0"), f"one.part has {said}: make it anew with --names 0")):
            ran = self.check_parts([mine, other], *words)
            self.assertEqual((ran.returncode, ran.stdout), (2, ""))
            self.assertRegex(" ".join(ran.stderr.split()), why)
        self.assertEqual(self.check_parts([mine, first], *words_of(1)).returncode, 0)

    def test_with_names_and_folder(self):
        """What is asked for is what all flags ask for. 1/1 is all names."""
        names = {name for name in self.lines_of(self.part(self.one, "--names", "0/"))[1]}
        number = slice_of("0/of 0/0.bin")
        words = ("--names", "0/", *words_of(number), "--folder", FOLDER)
        some = self.lines_of(self.part(self.one, *words))[1]
        self.assertEqual(set(some), {name for name in names if slice_of(name) == number})
        lines = self.check(*words).stdout.splitlines()
        self.assertEqual(lines[:2], ["settled", f"folder {FOLDER}: {len(some)} names, 0 deleted, 2 devices"])
        self.assertEqual(lines[-2:], [f"not asked for: names of {FOLDER} that don't begin with 0/", f"not asked for: names of {FOLDER} outside slice {number} of 7"])
        self.assertEqual(self.check("--slice", "1/1").stdout, self.check().stdout)
        empty = 1 + slice_of("link") % SLICES
        self.assertIn(f"no name that begins with link is in slice {empty} of 7", self.refused("--names", "link", *words_of(empty)))

    def test_what_one_device_ignores(self):
        """It is refused in its own slice, and no other one speaks of it."""
        ignored = self.two.files / ".stignore"
        ignored.write_text("/link\n")
        try:
            for number in range(1, SLICES + 1):
                ran = self.check("--strict", *words_of(number))
                self.assertEqual((ran.returncode, "link" in ran.stderr), (2, True) if number == slice_of("link") else (0, False), ran.stderr)
        finally:
            ignored.unlink()

    def test_the_sum_of_a_slice(self):
        """What was exported of a slice is summed up as of that slice."""
        number = slice_of("link")
        for words, status in (((), 6), (words_of(number), 0)):
            into = self.room / f"exported-{status}"
            parts = [self.part(device, *words_of(number)) for device in self.devices]
            ran = run([self.program, "export", *parts, *words, "--into", into])
            self.assertEqual(ran.returncode, 0, ran.stderr)
            self.assertIn(f"not asked for: names of {FOLDER} outside slice {number} of 7\n", ran.stderr)
            put_replies(into)
            ran = run([self.program, "sum", into])
            self.assertEqual(ran.returncode, status, ran.stderr)
            self.assertIn(f"names outside slice {number} of 7", ran.stdout)

    def test_a_part_of_before(self):
        """A part of 0.10.0 doesn't say how many names an index has, and is of all names."""
        whole = [self.part(device) for device in self.devices]
        for path in whole:
            first, *lines = shown(self.program, path)
            head = json.loads(first)
            self.assertEqual((head["version"], head["folders"][0].pop("indexed"), head.get("slice")), (1, 78, None))
            with gzip.open(path, "wt") as part:
                part.writelines([json.dumps(head) + "\n", *lines])
        self.assertEqual(self.check_parts(whole).stdout, self.check().stdout)
        ran = self.check_parts(whole, *words_of(3))
        self.assertEqual(ran.returncode, 2)
        self.assertIn("has all names: make it anew with --slice 3/7", " ".join(ran.stderr.split()))


class SlicesOfRunningDevices(Live):
    """Two devices in step that run."""

    @classmethod
    def synchronise(cls):
        fill(cls.one.files)
        cls.scan_and_wait()

    def test_two_looks_at_a_slice(self):
        """Both looks are at one slice. What changes between them and is of another slice isn't told."""
        number = slice_of("0/of 0/0.bin")
        other = next(f"0/of 0/{of}.bin" for of in range(0, 60, 12) if slice_of(f"0/of 0/{of}.bin") != number)
        self.words = words_of(number)
        for name, moving in ((other, set()), ("0/of 0/0.bin", {"0/of\\x200/0.bin"})):
            path = self.one.files / name
            status, lines = self.look(lambda: path.write_bytes(b"changed"))
            self.assertEqual((status, self.moving(lines)), (6, moving), lines)
            self.assertIn(f"not asked for: names of {FOLDER} outside slice {number} of 7", lines)
            self.scan_and_wait()
        status, lines = self.look()
        self.assertEqual(status, 6)
        self.assertEqual(self.told(*self.words)[0], 0)
        self.words = words_of(1 + number % SLICES)
        self.end()
        ran = self.check_parts(self.looks())
        self.assertEqual((ran.returncode, ran.stdout), (2, ""))
        self.assertIn("make both with the same --slice", " ".join(ran.stderr.split()))

    def test_run(self):
        name = "1/of 2/5.bin"
        homes = [device.home for device in self.devices]
        with rot(self.two.files / name, 3):
            for number in range(1, SLICES + 1):
                ran = run([self.program, "run", *homes, "--still", "0", *words_of(number), "--syncaudit", self.auditor])
                self.assertEqual(ran.returncode, int(number == slice_of(name)), ran.stderr + ran.stdout)
                self.assertIn(f"\nnot asked for: names outside slice {number} of 7 (in all: ", ran.stdout)
                if number != slice_of(name):
                    self.assertTrue(ran.stdout.startswith(f"{FOLDER}: {IN_STEP}; still for "), ran.stdout)


if __name__ == "__main__":
    main()
