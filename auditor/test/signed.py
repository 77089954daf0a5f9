#!/usr/bin/env python3
"""Parts of real devices that are signed, and lists of who may sign them.

    auditor/test/signed.py
"""

import gzip
import json
import os
import shutil
import subprocess
import unittest

from exporting import NOT_SIGNED, Exporting, main, put_replies, run, shown
from syncthing import FOLDER


@unittest.skipUnless(shutil.which("ssh-keygen"), "openssh-client is missing")
class Signed(Exporting):
    """Two devices in step, each with a key of its own."""

    @classmethod
    def setUpClass(cls):
        super().setUpClass()
        cls.keys = {device: cls.room / "keys" / device.home.parent.name / "key" for device in cls.devices}
        cls.signers = cls.room / "allowed_signers"
        cls.first = {device: cls.signed(device) for device in cls.devices}
        lines = [ran.stderr.splitlines()[-1] for ran in cls.first.values()]
        cls.signers.write_text("".join(f"{line}\n" for line in lines))
        cls.parts = [cls.path(device) for device in cls.devices]

    def setUp(self):
        super().setUp()
        for device in self.devices:
            self.signed(device)

    @classmethod
    def path(cls, device):
        """Where a device's part goes."""
        return cls.room / f"{device.home.parent.name}.part"

    @classmethod
    def signed(cls, device, *words, key=None, path=None):
        """Makes a device's part, with its signature."""
        return run([cls.program, "part", "--home", device.home, "--sign", key or cls.keys[device], "-o", path or cls.path(device), *words], check=not key)

    def audit(self, *words, parts=None):
        """Audits the parts by the list of signers."""
        return run([self.program, "check", *(parts or self.parts), "--allowed-signers", self.signers, "--syncaudit", self.auditor, *words])

    def sign_by_hand(self, path, device):
        """Signs a file as a person does."""
        path.with_name(f"{path.name}.sig").unlink(missing_ok=True)
        subprocess.run(["ssh-keygen", "-q", "-Y", "sign", "-n", "syncthing-audit", "-f", self.keys[device], path], check=True, capture_output=True)

    def assert_refused(self, path, why):
        """The audit refuses this part, for this reason, and answers nothing."""
        ran = self.audit()
        self.assertEqual((ran.returncode, ran.stdout), (2, ""), ran.stderr)
        self.assertIn(f"syncthing-audit: {path}: refused: ", ran.stderr)
        self.assertIn(why, ran.stderr)

    def rewritten(self, path, **fields):
        """Writes a part anew with other fields in its head, in the older encoding."""
        head, *lines = shown(self.program, path)
        with gzip.open(path, "wt") as part:
            part.writelines([json.dumps({**json.loads(head), **fields}) + "\n", *lines])

    def test_a_key_is_made_at_its_first_use(self):
        for device in self.devices:
            told = self.first[device].stderr.splitlines()
            self.assertTrue(told[-1].startswith(f'{device.id} namespaces="syncthing-audit" ssh-ed25519 '), told)
            self.assertEqual((self.keys[device].stat().st_mode & 0o777, self.keys[device].parent.stat().st_mode & 0o777), (0o600, 0o700))
            had = self.keys[device].read_bytes()
            self.assertNotIn("ssh-ed25519", self.signed(device).stderr)
            self.assertEqual(self.keys[device].read_bytes(), had)

    def test_signed_parts_have_an_answer(self):
        for words in ((), ("--lines",), ("--json",)):
            ran = self.audit(*words)
            self.assertEqual((ran.returncode, "not signed" in ran.stdout, "not_signed" in ran.stdout), (0, False, False), ran.stdout + ran.stderr)
        words = [self.program, "check", *self.parts, "--syncaudit", self.auditor]
        unchecked = run([*words, "--lines"]).stdout.splitlines()
        self.assertEqual({line for line in unchecked if line.startswith(NOT_SIGNED)}, {f"{NOT_SIGNED}{self.number(one)}" for one in self.devices})
        self.assertIn("\nnot signed: 2 parts of ", run(words).stdout)
        self.assertEqual([one["not_signed"] for one in json.loads(run([*words, "--json"]).stdout)["devices"]], [True, True])
        documents = self.room / "documents"
        for named in ((), ("--allowed-signers", self.signers)):
            ran = run([self.program, "export", *self.parts, "--into", documents, *named], check=True)
            put_replies(documents)
            told = run([self.program, "sum", documents]).stdout
            self.assertEqual(("not signed: 2 parts" in told, f"{FOLDER}: in step" in told), (not named, True), told)
            shutil.rmtree(documents)

    def test_what_is_not_signed_by_its_device_is_refused(self):
        path, signature = self.parts[1], self.parts[1].with_name("two.part.sig")
        signature.unlink()
        self.assert_refused(path, "it isn't signed")
        self.signed(self.two)
        self.rewritten(path, name="forged")
        self.assert_refused(path, f"it isn't known to be by device {self.two.id}")
        self.sign_by_hand(path, self.one)
        self.assert_refused(path, f"it isn't known to be by device {self.two.id}")
        self.sign_by_hand(path, self.two)
        self.assertEqual(self.audit().returncode, 0)
        for one, other in zip(("one.part", "one.part.sig"), ("two.part", "two.part.sig")):
            shutil.copy(self.room / one, self.room / other)
        ran = self.audit()
        self.assertEqual((ran.returncode, ran.stdout), (2, ""), ran.stderr)

    def test_an_older_part_is_told_by_its_age(self):
        self.rewritten(self.parts[1], made="2026-01-01T00:00:00Z")
        self.sign_by_hand(self.parts[1], self.two)
        told = self.audit().stdout
        self.assertIn(f"read more than a day ago: {self.two.id[:7]} 2026-01-01", told)

    def test_parts_of_two_looks_are_signed_each(self):
        looks, tokens = [], self.room / "tokens"
        tokens.write_text("")
        for look, words in (("begin", ("--begin",)), ("end", ("--end", "--tokens", tokens))):
            for device in self.devices:
                looks.append(self.room / f"{look}-{device.home.parent.name}.part")
                ran = self.signed(device, *words, path=looks[-1])
                with tokens.open("a") as file:
                    file.write(ran.stdout)
        ran = self.audit("--lines", parts=looks)
        self.assertEqual(ran.stdout.splitlines()[0][:7], "settled", ran.stderr)
        looks[3].with_name(f"{looks[3].name}.sig").unlink()
        ran = self.audit(parts=looks)
        self.assertEqual((ran.returncode, ran.stdout), (2, ""))
        self.assertIn(f"{looks[3]}: refused: it isn't signed", ran.stderr)

    def test_no_key_and_no_signature_goes_where_others_read_it(self):
        inside = self.one.files / "key"
        for key, path in ((inside, None), (self.keys[self.one], self.one.files / "new.part")):
            ran = self.signed(self.one, key=key, path=path)
            self.assertEqual(ran.returncode, 2, ran.stderr)
            self.assertIn(f"would be in folder {FOLDER}", ran.stderr)
            self.assertEqual([one for one in self.one.files.iterdir() if one.name.startswith((inside.name, "new"))], [])
        mine = self.room / "readable"
        shutil.copy(self.keys[self.one], mine)
        mine.chmod(0o644)
        had = self.parts[0].read_bytes()
        self.assertIn("others may read it", self.signed(self.one, key=mine).stderr)
        self.signers.chmod(0o666)
        ran = self.audit()
        self.signers.chmod(0o600)
        self.assertEqual((ran.returncode, ran.stdout, self.parts[0].read_bytes()), (2, "", had))
        self.assertIn("others may write it", ran.stderr)

    def test_a_signature_takes_the_place_of_a_file_alone(self):
        elsewhere, path = self.room / "elsewhere", self.room / "linked.part"
        elsewhere.write_text("mine")
        path.with_name("linked.part.sig").symlink_to(elsewhere)
        ran = self.signed(self.one, key=self.keys[self.one], path=path)
        self.assertEqual((ran.returncode, path.exists(), elsewhere.read_text()), (2, False, "mine"), ran.stderr)

    def test_without_ssh_keygen_nothing_is_hashed(self):
        path = self.room / "none.part"
        ran = run([self.program, "part", "--home", self.one.home, "--sign", self.room / "new" / "key", "-o", path], env={**os.environ, "PATH": "/nowhere"})
        self.assertEqual((ran.returncode, path.exists(), (self.room / "new" / "key").exists()), (2, False, False))
        self.assertIn("ssh-keygen isn't there", ran.stderr)


if __name__ == "__main__":
    main()
