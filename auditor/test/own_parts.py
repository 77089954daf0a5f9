"""What a device's part has, where it may go, and what is told of parts."""

import gzip
import json
import os
import subprocess

from exporting import run, without_devices
from syncthing import FOLDER, version_of


class OwnParts:
    """Cases of parts, which are mixed into a class of two devices in step."""

    def test_a_part_without_names_says_so(self):
        """It is made all the same: the device may be behind with all of them. Where no part has any, the audit is refused."""
        parts = [self.room / f"{place}.nobody.part" for place in (1, 2)]
        for device, path in zip(self.devices, parts):
            ran = run([self.program, "part", "--home", device.home, "--names", "no body", "-o", path])
            self.assertEqual((ran.returncode, ran.stdout), (0, ""))
            self.assertIn("no name here begins with 'no body', on the disk or in the index: the part has none\n", ran.stderr)
        ran = self.check_parts(parts)
        self.assertEqual((ran.returncode, ran.stdout), (2, ""))
        self.assertIn("no name begins with 'no body'", ran.stderr)
        ran = run([self.program, "part", "--home", self.one.home, "--names", "text", "-o", parts[0]])
        self.assertEqual((ran.returncode, ran.stderr), (0, ""))

    def test_parts_of_some_names(self):
        """Who checks them without --names didn't choose these, so the answer is one as far as audited."""
        parts = [self.room / f"{place}.folder.part" for place in (1, 2)]
        for device, path in zip(self.devices, parts):
            self.assertEqual(run([self.program, "part", "--home", device.home, "--names", "folder/", "-o", path]).returncode, 0)
        told = f"not asked for: names of {FOLDER} that don't begin with folder/"
        for words, status, verdict in (((), 6, "settled as far as audited"), (("--names", "folder/"), 0, "settled")):
            ran = self.check_parts(parts, *words)
            lines = without_devices(ran.stdout.splitlines())
            self.assertEqual((ran.returncode, lines[0], lines[-1]), (status, verdict, told))
        for made, words, why in ((parts, ("--names", "text"), "has the names that begin with folder/: make it anew with --names text"),
                                 ([self.part(self.one), parts[1]], (), "has all names(:|, and).* make all parts with the same --names")):
            ran = self.check_parts(made, *words)
            self.assertEqual((ran.returncode, ran.stdout), (2, ""))
            self.assertRegex(" ".join(ran.stderr.split()), why)

    def test_a_part_of_the_home_that_syncthing_takes(self):
        user, path = self.room / "user", self.room / "usual.part"
        for usual in (".config", ".local/state"):
            (user / usual).mkdir(parents=True)
            (user / usual / "syncthing").symlink_to(self.one.home)
            ran = run([self.program, "part", "-o", path], env={**os.environ, "HOME": str(user)})
            self.assertEqual((ran.returncode, ran.stderr), (0, ""))
            (user / usual / "syncthing").unlink()
        self.assertEqual(self.check_parts([path, self.part(self.two)]).stdout.splitlines()[0], "settled")
        ran = run([self.program, "part", "-o", path], env={**os.environ, "HOME": str(user)})
        self.assertEqual(ran.returncode, 3)
        self.assertIn(f"no Syncthing home is at {user}/.config/syncthing or {user}/.local/state/syncthing: give it as --home DIR", ran.stderr)

    def test_a_part_in_a_folder_of_another_home_is_refused(self):
        """The marker shows it, whichever way the part goes there."""
        path = self.two.files / "folder" / "one.part"
        for words in (("-o", path), ("--begin", "-o", path), ()):
            with (self.room / "output" if words else path).open("wb") as file:
                ran = subprocess.run([self.program, "part", "--home", self.one.home, *words], stdout=file, stderr=subprocess.PIPE, text=True)
            left = [one.name for one in path.parent.iterdir()]
            path.unlink(missing_ok=True)
            self.assertEqual((ran.returncode, sorted(left)), (2, ["large"] if words else ["large", "one.part"]), ran.stderr)
            self.assertIn(f"one.part would be in the Syncthing folder {self.two.files} (.stfolder is there), whose devices would all get it", ran.stderr)

    def test_a_part_that_a_shell_writes_into_a_folder_is_refused(self):
        """It would be found there. That is so by another path of the folder, too, and not of a file beside the folder."""
        beside, link = self.one.home.parent / "beside.part", self.one.home.parent / "link"
        link.symlink_to(self.one.files)
        for path in (self.one.files / "one.part", link / "folder" / "one.part"):
            for words in ((), ("-o", "-"), ("-o", "/dev/stdout"), ("--begin",)):
                with path.open("wb") as file:
                    ran = subprocess.run([self.program, "part", "--home", self.one.home, *words], stdout=file, stderr=subprocess.PIPE, text=True)
                written = path.read_bytes()
                path.unlink()
                self.assertEqual((ran.returncode, written), (2, b""), ran.stderr)
                self.assertIn(f"one.part would be in folder {FOLDER}, whose devices would all get it: name a file elsewhere. It is there already",
                              ran.stderr)
        with beside.open("wb") as file:
            subprocess.run([self.program, "part", "--home", self.one.home], stdout=file, check=True)
        self.assertGreater(beside.stat().st_size, 0)

    def test_parts_say_what_homes_do(self):
        with self.other_bytes():
            parts = [self.part(device) for device in self.devices]
        ran = self.check_parts(parts)
        self.assertEqual((ran.returncode, ran.stdout.splitlines()[0]), (1, self.differs()), ran.stderr)
        self.assertEqual(self.check_parts(parts[:1]).returncode, 6)
        ran = self.check_parts(parts[:1], "--strict")
        self.assertEqual((ran.returncode, ran.stdout), (2, ""))

    def test_a_part_tells_which_syncthing_runs(self):
        for device in self.devices:
            self.assertIn(f"syncthing {json.loads(self.shown(device)[0])['syncthing']} ", version_of(device.program))

    def test_what_is_no_part_is_refused(self):
        whole = self.part(self.one).read_bytes()
        path = self.room / "broken.part"
        for data in (b"", b"hello", whole[:-1], whole[:100], whole[:-20] + whole[-19:]):
            path.write_bytes(data)
            ran = self.check_parts([path, self.part(self.two)])
            self.assertEqual((ran.returncode, ran.stdout), (2, ""))
            self.assertIn("broken.part", ran.stderr)

    def test_a_part_is_shown(self):
        path = self.part(self.one)
        ran = run([self.program, "part", "--show", path], check=True)
        head, begin, *lines, end = map(json.loads, ran.stdout.splitlines())
        self.assertEqual((head["device"], begin["begin"], end["end"]["names"]), (self.one.id, {"folder": FOLDER}, len(lines)))
        self.assertEqual(gzip.decompress(path.read_bytes()).partition(b"\n")[0], b"syncthing-audit part, encoding 2")
        for words, status in ([self.room / "none.part"], 2), ([path, "--jobs", "1"], 3), ([""], 3):
            ran = run([self.program, "part", "--show", *words])
            self.assertEqual((ran.returncode, ran.stdout), (status, ""), ran.stderr)
