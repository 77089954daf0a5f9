#!/usr/bin/env python3
"""Real Syncthing devices on loopback that share more than one folder, of which one is audited.

    auditor/test/unasked.py
"""

import gzip
import json
import xml.etree.ElementTree as xml

from exporting import IN_STEP, Exporting, main, put_replies, run, shown
from live_looks import rot
from syncthing import FOLDER, Device

OTHER, LABEL = "music", "My music"


def add_folder(device, folder, label, is_shared=True):
    """Adds a folder to a device's configuration: for the devices of the one that is there, or for the device alone."""
    path = device.home / "config.xml"
    tree = xml.parse(path)
    made = xml.fromstring(xml.tostring(tree.getroot().find("folder")))
    files = device.room / device.home.parent.name / folder
    (files / ".stfolder").mkdir(parents=True)
    made.attrib.update(id=folder, label=label, path=str(files))
    for one in made.findall("device"):
        if not is_shared and one.get("id") != device.id:
            made.remove(one)
    tree.getroot().append(made)
    tree.write(path)


class OtherFolders(Exporting):
    """Two devices in step, that share a second folder, too."""

    @classmethod
    def configure(cls):
        super().configure()
        for device in cls.devices:
            add_folder(device, OTHER, LABEL)

    def told(self, *words):
        """What an audit for people says of other folders, and its status."""
        ran = run([self.program, "check", *words, "--syncaudit", self.auditor])
        return ran.returncode, [line for line in ran.stdout.splitlines() if line.startswith("not ") and not line.startswith("not signed") and "compared" not in line]

    def homes(self):
        """The words for all homes."""
        return [word for device in self.devices for word in ("--home", device.home)]

    def on_both(self):
        """The second folder with its devices, as a person reads of it."""
        return f"{OTHER} ({LABEL}) on {', '.join(sorted(device.id[:7] for device in self.devices))}"

    def test_all_folders_are_audited(self):
        self.assertEqual(self.told(*self.homes()), (0, []))
        self.assertEqual(self.told(*(self.part(device) for device in self.devices)), (0, []))

    def test_parts_of_one_folder(self):
        """Nobody who checks asked for that one alone, so the answer is one as far as audited."""
        parts = [self.part(device, "--folder", FOLDER) for device in self.devices]
        told = f"not audited: 1 folder that these devices share and no part has: {self.on_both()}"
        self.assertEqual(self.told(*parts), (6, [told]))
        self.assertEqual(self.told(*parts, "--folder", FOLDER), (0, [f"not asked for: 1 folder: {self.on_both()}"]))
        ran = self.check_parts(parts, "--folder", OTHER)
        self.assertEqual((ran.returncode, ran.stdout), (2, ""))
        self.assertRegex(ran.stderr, f"no part has folder {OTHER} \\({LABEL}\\), which device .* has: make the parts without --folder, or with it for this")
        lines = self.check_parts(parts).stdout.splitlines()
        self.assertEqual(lines[0], "settled as far as audited")
        self.assertEqual({line for line in lines if line.startswith("not asked for: ")},
                         {f"not asked for: folder {OTHER} on {self.number(device)}" for device in self.devices})

    def test_documents_are_not_exported_into_a_folder_that_nobody_asked_for(self):
        """Its marker may have another name, or be gone for now. The homes tell where it is."""
        music = self.one.home.parent / OTHER
        (music / ".stfolder").rename(self.room / "marker")
        try:
            ran = run([self.program, "export", *self.homes(), "--folder", FOLDER, "--into", music / "documents"])
            self.assertEqual((ran.returncode, list(music.iterdir())), (2, []), ran.stderr)
        finally:
            (self.room / "marker").rename(music / ".stfolder")
        self.assertIn(f"documents would be in folder {OTHER} ({LABEL}) of {self.one.home}, whose devices would all get the documents", ran.stderr)

    def test_one_part_is_without_a_folder(self):
        parts, why = [self.part(self.one), self.part(self.two, "--folder", FOLDER)], f"folder {OTHER}{{}}, device {self.two.id}: its part is without the folder: make it without --folder"
        ran = self.check_parts(parts, "--strict")
        self.assertEqual((ran.returncode, ran.stdout), (2, ""))
        self.assertIn(why.format(f" ({LABEL})"), ran.stderr)
        ran = self.check_parts(parts)
        self.assertEqual((ran.returncode, ran.stdout.splitlines()[0]), (6, "settled as far as audited"))
        self.assertIn(why.format(""), ran.stdout)

    def test_one_folder_of_all(self):
        for inputs in (self.homes(), [self.part(device) for device in self.devices]):
            self.assertEqual(self.told(*inputs, "--folder", FOLDER), (0, [f"not asked for: 1 folder: {self.on_both()}"]))

    def test_folders_that_a_device_lacks(self):
        """One command serves on all devices: a part has those of the folders that its device has, and the others are told. Who then asks
        for one that no part has is refused."""
        one, two = (self.room / f"{name}.some.part" for name in ("one", "two"))
        for device, path in ((self.one, one), (self.two, two)):
            for look in (("--begin",), ()):
                ran = run([self.program, "part", *look, "--home", device.home, "--folder", FOLDER, "--folder", "nowhere", "-o", path])
                self.assertEqual(ran.returncode, 0, ran.stderr)
                self.assertIn(f"no folder here has the id nowhere: there are {FOLDER}, {OTHER} ({LABEL}). The part is without it\n", ran.stderr)
        self.assertEqual(self.told(one, two, "--folder", FOLDER)[0], 0)
        self.assertEqual(self.told(one, two)[0], 6)
        for command in (("check", "--syncaudit", self.auditor), ("export",)):
            for wanted in ("nowhere", OTHER):
                ran = run([self.program, *command, one, two, "--folder", FOLDER, "--folder", wanted])
                self.assertEqual((ran.returncode, ran.stdout), (2, ""))
                self.assertRegex(ran.stderr, f"no folder here has the id {wanted}|no part has folder {wanted} ")
        ran = run([self.program, "part", "--home", self.one.home, "--folder", "nowhere", "--folder", LABEL, "-o", self.room / "none.part"])
        self.assertEqual((ran.returncode, ran.stdout), (2, ""))
        self.assertIn(f"the id nowhere: there are {FOLDER}, {OTHER} ({LABEL}); no folder here has the id '{LABEL}', which is a label: the id is {OTHER}", ran.stderr)
        self.assertFalse((self.room / "none.part").exists())

    def test_a_part_of_an_older_program(self):
        """It doesn't say which folders it hasn't, and that is told."""
        parts = [self.part(device, "--folder", FOLDER) for device in self.devices]
        head, *lines = shown(self.program, parts[0])
        read = json.loads(head)
        del read["other_folders"]
        with gzip.open(parts[0], "wt") as file:
            file.writelines([json.dumps(read) + "\n", *lines])
        status, told = self.told(*parts)
        self.assertEqual((status, told[1]), (6, f"not told: which other folders {self.one.id[:7]} may share; an older syncthing-audit made its part"))

    def assert_named(self, words, why):
        """What is refused names the folder by its id and its label, as an answer does."""
        ran = run([self.program, *words])
        self.assertEqual((ran.returncode, ran.stdout), (2, ""))
        self.assertRegex(ran.stderr, f"folder {OTHER} \\({LABEL}\\){why}")

    def test_refusals_name_the_label(self):
        part = ("part", "--home", self.one.home, "--folder", OTHER, "-o")
        files = self.one.home.parent / OTHER
        self.assert_named(["check", "--strict", "--home", self.one.home, "--syncaudit", self.auditor], ", device .*: it shares the folder")
        self.assert_named([*part, files / "one.part"], ", whose devices would all get it")
        (files / ".stignore").write_text("#include nowhere\n")
        for look in ((), ("--begin",)):
            self.assert_named([*part, self.room / "one.part", *look], ": .*/.stignore can't be read")
        (files / ".stignore").unlink()
        (files / ".stfolder").rename(files / "away")
        self.assert_named([*part, self.room / "one.part"], ": .* other things are there")
        (files / "away").rename(files / ".stfolder")

    def test_two_looks_at_one_folder(self):
        """The devices are stopped, which 'run' doesn't mind."""
        for words, told in (((), []), (("--folder", FOLDER), [f"not asked for: 1 folder: {self.on_both()}"])):
            ran = run([self.program, "run", self.one.home, self.two.home, "--still", "0", "--syncaudit", self.auditor, *words])
            self.assertEqual((ran.returncode, [line for line in ran.stdout.splitlines() if line.startswith("not asked")]), (0, told), ran.stderr)


class OwnFolders(Exporting):
    """Two devices in step, each of which has a folder `default` that it shares with nobody, as a new Syncthing has. These are two folders,
    of which nothing can be out of step with another device."""

    @classmethod
    def configure(cls):
        super().configure()
        for device in cls.devices:
            add_folder(device, "default", "Default Folder", is_shared=False)

    @classmethod
    def synchronise(cls):
        """Each device has notes of its own there, which are recorded."""
        for place, device in enumerate(cls.devices):
            notes = cls.notes(device)
            notes.write_text(f"notes of device {place}")
            device.api("POST", "db/scan?folder=default")
        super().synchronise()

    @staticmethod
    def notes(device):
        """A device's notes."""
        return device.room / device.home.parent.name / "default" / "notes.txt"

    def told(self, *words):
        """What an audit of both tells, and its status."""
        ran = run([self.program, *words, "--syncaudit", self.auditor])
        return ran.returncode, ran.stdout

    def inputs(self):
        """The words for the homes, and those for the parts."""
        return [[word for device in self.devices for word in ("--home", device.home)], [self.part(device) for device in self.devices]]

    def test_folders_of_one_id_are_not_compared(self):
        """Each is compared with its device's own index, and that is told."""
        names = ", ".join(sorted(device.id[:7] for device in self.devices))
        for inputs in self.inputs():
            status, text = self.told("check", *inputs)
            self.assertEqual(status, 0, text)
            self.assertEqual(len([line for line in text.splitlines() if line.startswith("default (Default Folder): in step")]), 2, text)
            self.assertIn(f"\nshared with no device: default (Default Folder) on {names}: what stands on the disk was compared", text)
            self.assertNotIn("left out", text)
            status, text = self.told("check", *inputs, "--lines")
            self.assertEqual((status, text.splitlines()[0]), (0, "settled"))
            for device in self.devices:
                self.assertIn(f"\nnot shared: folder default on {self.number(device)}\n", text)
        self.assertEqual(self.told("run", *(device.home for device in self.devices), "--still", "0")[0], 0)

    def test_a_folder_of_another_id_that_none_of_several_devices_shares(self):
        """Syncthing draws such an id at random. So someone gave it to both devices, and may think that they share it."""
        paths = [device.home / "config.xml" for device in self.devices]
        before = [path.read_text() for path in paths]
        try:
            for path, text in zip(paths, before):
                tree = xml.fromstring(text)
                for one in [one for one in tree.findall("folder") if one.get("id") == FOLDER]:
                    for other in one.findall("device"):
                        if other.get("id") != self.devices[paths.index(path)].id:
                            one.remove(other)
                path.write_text(xml.tostring(tree, encoding="unicode"))
            names = ", ".join(sorted(device.id[:7] for device in self.devices))
            for inputs in self.inputs():
                for words in ([], ["--folder", FOLDER]):
                    status, text = self.told("check", *inputs, *words)
                    self.assertEqual(status, 6, text)
                    self.assertEqual(len([line for line in text.splitlines() if line.startswith(f"{FOLDER}: {IN_STEP} as far as audited")]), 2, text)
                    self.assertIn(f"\nnot shared with one another: {FOLDER} on {names}: each has a folder of this id, and shares it with no device. ", text)
                    self.assertIn("alone, and not with what the others have\n", text)
            self.assertEqual(self.told("run", *(device.home for device in self.devices), "--still", "0", "--folder", FOLDER)[0], 6)
            self.assertEqual(self.told("check", "--home", self.one.home, "--folder", FOLDER)[0], 0)
        finally:
            for path, text in zip(paths, before):
                path.write_text(text)

    def test_the_sum_of_their_documents(self):
        into = self.room / "documents"
        self.assertEqual(run([self.program, "export", *self.inputs()[1], "--into", into]).returncode, 0)
        put_replies(into)
        ran = run([self.program, "sum", into])
        self.assertEqual((ran.returncode, ran.stdout), self.told("check", *self.inputs()[1]))

    def test_a_rotten_file_of_one_of_them(self):
        """It is told of its own device, and so it is as a program reads it."""
        for device in self.devices:
            with rot(self.notes(device), 3):
                for inputs in self.inputs():
                    status, text = self.told("check", *inputs, "--lines")
                    self.assertEqual((status, text.splitlines()[0]), (1, f"not settled: StoreDiffers default notes.txt on {self.number(device)}"))
                    wrong = [one for one in json.loads(self.told("check", *inputs, "--json")[1])["folders"] if one["names_wrong"]]
                    self.assertEqual([(one["id"], [at["device"] for at in one["devices"]], one["not_shared"]) for one in wrong],
                                     [("default", [device.id], True)])
                    self.assertIn("look among old versions and backups: no audited device has what is recorded", " ".join(self.told("check", *inputs)[1].split()))

    def test_a_folder_that_is_shared_with_a_device_that_is_missing(self):
        """There is another device to compare it with, and that is told."""
        alone = self.part(self.one)
        ran = run([self.program, "check", "--strict", alone, "--syncaudit", self.auditor])
        self.assertEqual((ran.returncode, ran.stdout), (2, ""))
        status, text = self.told("check", alone)
        self.assertEqual(status, 6)
        self.assertIn(f"\nalone: {FOLDER} is audited on one device", text)

    def test_a_folder_that_a_part_lacks_whose_device_shares_it(self):
        """The other device doesn't say so: it shares its own with nobody."""
        path = self.two.home / "config.xml"
        before, tree = path.read_text(), xml.parse(path)
        folder = [one for one in tree.getroot().findall("folder") if one.get("id") == "default"][0]
        xml.SubElement(folder, "device", id=self.one.id)
        tree.write(path)
        try:
            parts = [self.part(self.one), self.part(self.two, "--folder", FOLDER)]
        finally:
            path.write_text(before)
        status, text = self.told("check", *parts, "--folder", "default")
        self.assertEqual(status, 6, text)
        self.assertRegex(text, f"\nleft out: default .* of {self.two.id}: its part is without the folder: make it without --folder, .*; device .* shares it with nobody")
        status, text = self.told("check", self.part(self.one), self.part(self.two, "--folder", FOLDER))
        self.assertEqual((status, "left out" in text), (0, False), text)

    def test_a_folder_that_only_others_share(self):
        """Someone may think that the device shares it, too."""
        path, third = self.two.home / "config.xml", Device(self.room, "third").id
        before, tree = path.read_text(), xml.parse(path)
        folder = [one for one in tree.getroot().findall("folder") if one.get("id") == "default"][0]
        xml.SubElement(folder, "device", id=third)
        xml.SubElement(tree.getroot(), "device", id=third)
        tree.write(path)
        try:
            status, text = self.told("check", *self.inputs()[0])
        finally:
            path.write_text(before)
        self.assertEqual(status, 6)
        self.assertRegex(text, "left out: default .*: (it doesn't share the folder with|it shares its folder of this id with nobody)")


if __name__ == "__main__":
    main()
