#!/usr/bin/env python3
"""Real Syncthing devices on loopback that share more than one folder, of which one is away on a device: paused, or without its disk or its marker.

    auditor/test/away_folders.py
"""

import json
import xml.etree.ElementTree as xml

from exporting import IN_STEP, Exporting, main, run
from syncthing import FOLDER
from unasked import LABEL, OTHER, add_folder


class AwayFolders(Exporting):
    """Two devices in step, that share a second folder, too. On the second device it is paused, and its disk is away."""

    @classmethod
    def configure(cls):
        super().configure()
        for device in cls.devices:
            add_folder(device, OTHER, LABEL)
            (device.home.parent / OTHER / "song").mkdir()

    @classmethod
    def setUpClass(cls):
        super().setUpClass()
        cls.files = cls.two.home.parent / OTHER
        cls.files.rename(cls.files.with_name("away"))
        cls.pause(cls.two, True)

    @classmethod
    def pause(cls, device, is_paused):
        """Has the second folder paused on a device, or not."""
        path = device.home / "config.xml"
        tree = xml.parse(path)
        folder = next(one for one in tree.getroot().findall("folder") if one.get("id") == OTHER)
        folder.find("paused").text = str(is_paused).lower()
        tree.write(path)

    def assert_left_out_there(self, ran, why=None):
        """The other folder is audited, and what isn't there is told."""
        self.assertEqual(ran.returncode, 6, ran.stderr)
        told = f"left out: {OTHER} ({LABEL}) of {self.two.id}: it is paused there, and {why or f'there is no {self.files}'}: mount its disk, and audit again\n"
        self.assertEqual(ran.stdout.count(told), 1, ran.stdout)
        self.assertRegex(ran.stdout, rf"(?m)^{FOLDER}: {IN_STEP}[;,] ")
        self.assertNotIn("not audited:", ran.stdout)

    def test_it_is_left_out_and_told(self):
        """So it is by a part of each device, and by two looks at each."""
        parts = [self.part(device) for device in self.devices]
        ran = run([self.program, "part", "--home", self.two.home, "-o", parts[1]])
        self.assertEqual((ran.returncode, ran.stderr.count(f"the part is without folder {OTHER} ({LABEL}): it is paused there")), (0, 1), ran.stderr)
        homes = [device.home for device in self.devices]
        for words in (("check", *parts), ("check", "--home", homes[0], "--home", homes[1]), ("run", *homes, "--still", "0")):
            why = "its directory isn't there" if words[1:] == tuple(parts) else None
            self.assert_left_out_there(run([self.program, *words, "--syncaudit", self.auditor]), why)
        ran = run([self.program, "check", *parts, "--json", "--syncaudit", self.auditor])
        read = json.loads(ran.stdout)
        self.assertEqual((read["verdict"], read["not_asked"], [(one["folder"], one["kind"]) for one in read["left_out"]]),
                         ("in-step-as-far-as-audited", [], [(OTHER, "absent")]))

    def test_it_is_asked_for(self):
        """Who names it is told that it isn't there. Who names others isn't."""
        ran = run([self.program, "part", "--home", self.two.home, "--folder", OTHER, "-o", self.room / "none.part"])
        self.assertEqual((ran.returncode, (self.room / "none.part").exists()), (2, False))
        self.assertIn(f"there is no {self.files}: is its disk mounted?", ran.stderr)
        parts = [self.part(device) for device in self.devices]
        for folder, status, verdict, count in ((OTHER, 6, "settled as far as audited", 1), (FOLDER, 0, "settled", 0)):
            ran = self.check_parts(parts, "--folder", folder)
            self.assertEqual((ran.returncode, ran.stdout.splitlines()[0], ran.stdout.count("it is paused there, and its directory isn't there")), (status, verdict, count))

    def test_it_is_not_paused(self):
        """Syncthing stops such a folder with an error. It is left out, and the others are audited; a strict run refuses it."""
        words = [self.program, "run", self.one.home, self.two.home, "--still", "0", "--syncaudit", self.auditor]
        self.pause(self.two, False)
        try:
            ran, strict = run(words), run([*words, "--strict"])
            part = run([self.program, "part", "--strict", "--home", self.two.home, "-o", self.room / "none.part"])
        finally:
            self.pause(self.two, True)
        why = (f"{OTHER} ({LABEL}) of {self.two.id}: there is no {self.files}: mount its disk, and audit again. Syncthing has stopped the folder there, "
               "unless it runs in a container: then --map says where its directory is\n")
        self.assertEqual((ran.returncode, ran.stdout.count(f"left out: {why}")), (6, 1), ran.stdout)
        self.assertRegex(ran.stdout, rf"(?m)^{FOLDER}: .*{IN_STEP}[;,] ")
        self.assertEqual((strict.returncode, strict.stdout), (2, ""))
        self.assertIn(f"there is no {self.files}: mount its disk", strict.stderr)
        self.assertEqual(part.returncode, 2)
        self.assertIn(f"there is no {self.files}: is its disk mounted?", part.stderr)

    def test_only_its_marker_is_gone(self):
        """Its disk is mounted then. Who follows the advice from the top sees what is missing before Syncthing takes that for deleted."""
        room, marker = self.files.with_name("away"), self.files / ".stfolder"
        room.rename(self.files)
        marker.rmdir()
        (self.files / "song").rmdir()
        (self.files / "notes").write_text("notes")
        words = [self.program, "check", *(word for device in self.devices for word in ("--home", device.home)), "--syncaudit", self.auditor]
        why = f"{self.files} has no .stfolder, by which Syncthing knows the folder: other things are there. If its disk is mounted, pause the folder, put the marker back, and audit again"
        try:
            paused = run(words)
            self.pause(self.two, False)
            stopped = run(words)
            self.pause(self.two, True)
            marker.mkdir()
            ran = run([*words, "--json"])
        finally:
            self.pause(self.two, True)
            marker.mkdir(exist_ok=True)
            (self.files / "notes").unlink()
            (self.files / "song").mkdir()
            self.files.rename(room)
        for told, begin, end in ((paused, "it is paused there, and ", ""), (stopped, "", ". Syncthing has stopped the folder there")):
            self.assertEqual(told.returncode, 6, told.stderr)
            line = next(line for line in told.stdout.splitlines() if line.startswith("left out: "))
            self.assertIn(f" of {self.two.id}: {begin}{why}", line)
            self.assertTrue(line.endswith(f"mount it, and audit again{end}"), line)
        self.assertEqual((ran.returncode, [(one["id"], [(at["name"], [fault["cause"] for fault in at["faults"]]) for at in one["files"]])
                                           for one in json.loads(ran.stdout)["folders"] if one["names_wrong"]]),
                         (1, [(OTHER, [("notes", ["not-scanned"]), ("song", ["missing-on-disk"])])]))

    def test_both_have_it_away(self):
        """No device has anything of the folder then. That is told of each."""
        files = self.one.home.parent / OTHER
        files.rename(files.with_name("away"))
        self.pause(self.one, True)
        try:
            ran = self.on_homes("check", [device.home for device in self.devices], "--syncaudit", self.auditor)
            asked = self.check_parts([self.part(device) for device in self.devices], "--folder", OTHER)
        finally:
            files.with_name("away").rename(files)
            self.pause(self.one, False)
        self.assertEqual((asked.returncode, asked.stdout), (2, ""))
        self.assertRegex(asked.stderr, f"no part has folder {OTHER} .*: it is paused there, and its directory isn't there")
        self.assert_left_out_there(ran)
        self.assertEqual(ran.stdout.count(f"left out: {OTHER} ({LABEL}) of "), 2)


if __name__ == "__main__":
    main()
