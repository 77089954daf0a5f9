#!/usr/bin/env python3
"""The audit of real Syncthing devices on loopback one of whose disks fails to give bytes: the system answers with EIO, as it does
of a bad sector.

    auditor/test/damage.py
"""

import ctypes
import json
import struct
import subprocess

from exporting import Exporting, main
from syncthing import FOLDER, SECONDS_TO_WAIT

# Of no other file, and of no table of an index, so many bytes are read at once.
BYTES = 54321
PREAD, EIO = 17, 5
PR_SET_SECCOMP, PR_SET_NO_NEW_PRIVS, SECCOMP_MODE_FILTER = 22, 38, 2
LOAD, EQUALS, RETURN = 0x20, 0x15, 0x06
ALLOW, ERRNO = 0x7FFF0000, 0x00050000
# Where the system call's number and the lower half of its third argument stand.
AT_NUMBER, AT_COUNT = 0, 16 + 2 * 8


def fail_to_give():
    """Has this process, and those that it starts, get EIO for each pread of so many bytes, from the system itself."""
    lines = [(LOAD, 0, 0, AT_NUMBER), (EQUALS, 0, 3, PREAD), (LOAD, 0, 0, AT_COUNT), (EQUALS, 0, 1, BYTES), (RETURN, 0, 0, ERRNO | EIO),
             (RETURN, 0, 0, ALLOW)]
    filters = ctypes.create_string_buffer(b"".join(struct.pack("HBBI", *line) for line in lines))
    program = struct.pack("HxxxxxxQ", len(lines), ctypes.addressof(filters))
    system = ctypes.CDLL(None, use_errno=True)
    for words in ((PR_SET_NO_NEW_PRIVS, 1, 0, 0, 0), (PR_SET_SECCOMP, SECCOMP_MODE_FILTER, program, 0, 0)):
        if system.prctl(*words):
            raise OSError(ctypes.get_errno(), "prctl")


class Damage(Exporting):
    """Two devices in step, with a file that the second one's disk fails to give."""

    @classmethod
    def synchronise(cls):
        (cls.one.files / "bad").write_bytes(b"b" * BYTES)
        super().synchronise()

    def part_of_a_bad_disk(self, *words):
        """The second device's part, made while its disk fails to give the file."""
        path = self.room / "bad.part"
        try:
            ran = subprocess.run([self.program, "part", "--home", self.two.home, "-o", path, *words], capture_output=True, text=True,
                                 timeout=SECONDS_TO_WAIT, preexec_fn=fail_to_give)
        except subprocess.SubprocessError:
            self.skipTest("a filter of system calls isn't allowed here, so no read fails")
        self.assertEqual(ran.returncode, 0, ran.stderr)
        self.assertIn("the disk here fails to give what it has of 1 name: see the system's log; 'check' tells which these are\n", ran.stderr)
        return path

    def test_a_file_that_the_disk_fails_to_give(self):
        """It is wrong on that device, whatever is left out on request."""
        parts = [self.part(self.one), self.part_of_a_bad_disk()]
        for words in ((), ("--leave-out", "unreadable")):
            ran = self.check_parts(parts, *words)
            self.assertEqual((ran.returncode, ran.stdout.splitlines()[0]), (1, self.fault("StoreDiffers", "bad", self.two)), ran.stderr)
            self.assertIn(f"damaged: {FOLDER} bad on {self.number(self.two)}: read bad: input/output error\n", ran.stdout)
            self.assertNotIn("left out", ran.stdout)

    def test_a_person_and_a_program_read_of_it(self):
        parts = [self.part(self.one), self.part_of_a_bad_disk()]
        words = [self.program, "check", *parts, "--syncaudit", self.auditor]
        text = subprocess.run(words, capture_output=True, text=True, timeout=SECONDS_TO_WAIT).stdout
        one, two = self.one.id[:7], self.two.id[:7]
        for told in (f"{FOLDER}: NOT in step, 1 name is wrong; ", f"  {two}: the disk fails to give what it has; it may be lost there (read ",
                     f"  as recorded on: {one}\n", f"  to do: see the system's log on {two} (journalctl -k, smartctl -a)"):
            self.assertIn(told, text)
        self.assertIn("Don't delete what is damaged, and don't start Syncthing there, before that is done.", " ".join(text.split()))
        read = json.loads(subprocess.run([*words, "--json"], capture_output=True, text=True, timeout=SECONDS_TO_WAIT).stdout)
        (file,) = read["folders"][0]["files"]
        self.assertEqual([(fault["device"], fault["cause"], fault["why"]) for fault in file["faults"]],
                         [(self.two.id, "damaged", "read bad: input/output error")])
        sizes = [path.stat().st_size for device in self.devices for path in device.files.rglob("*") if path.is_file() and not path.is_symlink()]
        self.assertEqual(read["folders"][0]["bytes_hashed"], sum(sizes) - BYTES)

    def test_documents_with_bytes(self):
        """They say the same. Both homes are read by one program here, so that both disks fail."""
        words = [self.program, "check", *(word for device in self.devices for word in ("--home", device.home)), "--lines", "--syncaudit", self.auditor]
        told = []
        for more in ([], ["--bytes"]):
            ran = subprocess.run([*words, *more], capture_output=True, text=True, timeout=SECONDS_TO_WAIT, preexec_fn=fail_to_give)
            self.assertEqual(ran.returncode, 1, ran.stderr)
            told.append(ran.stdout)
        self.assertEqual(told[0], told[1])
        self.assertIn(self.failure("StoreDiffers", "bad", self.one), told[0].splitlines())


if __name__ == "__main__":
    main()
