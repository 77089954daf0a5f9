"""What a person and a program read of an audit of real devices."""

import json
import subprocess
import sys
from pathlib import Path

from exporting import IN_STEP
from syncthing import FOLDER

SCHEMA = Path(__file__).with_name("audit_schema.py")
STATUS_MISSING = 77


class Answers:
    """Cases of devices in step, which are mixed into a class of these."""

    def answer(self, *words):
        """What an audit of all homes writes in another form than lines, and its status."""
        ran = self.on_homes("check", [device.home for device in self.devices], "--syncaudit", self.auditor, *words)
        return ran.returncode, ran.stdout

    @staticmethod
    def label(device):
        """What a person reads of a device without a configured name: how its id begins."""
        return device.id[:7]

    def test_a_person_reads_that_all_is_in_step(self):
        status, text = self.answer()
        self.assertEqual(status, 0)
        self.assertRegex(text.splitlines()[0], rf"^{FOLDER}: {IN_STEP}; 6 names \(1 deleted\), .* hashed on ")
        self.assertNotIn("to do:", text)

    def test_a_person_reads_of_a_file_once(self):
        with self.other_bytes():
            status, text = self.answer()
        lines = text.splitlines()
        self.assertEqual(status, 1)
        self.assertRegex(lines[0], rf"^{FOLDER}: NOT in step, 1 name is wrong; 6 names ")
        self.assertEqual([line for line in lines if line.startswith("text")], [f"text  (in {FOLDER}, 5 bytes)"])
        for told in (f"  {self.label(self.two)}: other bytes on the disk; size and time are as recorded",
                     "    block 0 differs (1 of 1 block of 128 KiB; the first is block 0)", f"  as recorded on: {self.label(self.one)}",
                     f"({self.label(self.two)}: it has other", "to do: take the steps for it above, under 'to do in'.\n"):
            self.assertIn(told, text)

    def test_a_person_reads_of_a_rename(self):
        """Two names with the same bytes, one of which is gone from the disk, are told as renamed."""
        old, new = self.two.files / "folder" / "large", self.two.files / "renamed"
        old.rename(new)
        try:
            status, text = self.answer()
        finally:
            new.rename(old)
        self.assertEqual(status, 1)
        entries = {entry.split("  (in ")[0]: entry for entry in text.split("\n\n")}
        self.assertIn("  it seems to be renamed to renamed: the recorded bytes are the same\n", entries["folder/large"])
        self.assertIn("  it seems to be renamed from folder/large: the recorded bytes are the same\n", entries["renamed"])

    def test_a_program_reads_the_same(self):
        with self.other_bytes():
            status, text = self.answer("--json")
        self.assertEqual(status, 1)
        read = json.loads(text)
        self.assertEqual((read["verdict"], {one["id"] for one in read["devices"]}),
                         ("not-in-step", {one.id for one in self.devices}))
        (file,) = read["folders"][0]["files"]
        self.assertEqual((file["name"], [(one["device"], one["cause"]) for one in file["faults"]], file["have_recorded"]),
                         ("text", [(self.two.id, "other-bytes")], [self.one.id]))
        judged = subprocess.run([sys.executable, SCHEMA], input=text, capture_output=True, text=True)
        if judged.returncode == STATUS_MISSING:
            self.skipTest("Python's jsonschema isn't installed")
        self.assertEqual(judged.returncode, 0, judged.stdout)
