#!/usr/bin/env python3
"""Parts that devices send: the commands of syncthing-audit-part.service as they stand in the unit, with a stand-in for systemctl; ssh's forced command, which
takes them; and the nights of 'watch' that audit them.

    auditor/test/sent.py
"""

import gzip
import os
import re
import shutil
import signal
import socket
import subprocess
import time
import unittest

from exporting import PROGRAM, main, run
from large_folders import rot
from syncthing import wait_until
from watched import CONTRIB, Nights

RECEIVE = CONTRIB / "syncthing-audit-receive"
PART_UNIT = CONTRIB / "systemd" / "syncthing-audit-part.service"
MINE = gzip.compress(b"what is whole")
# It notes what it is asked. A unit runs where 'running' is there; 'stop' fails where 'unstopped' is there, and 'start' where 'stuck' is.
SYSTEMCTL = '''#!/bin/sh
cd "$(dirname "$0")" || exit
echo "$*" >> asked
case "$*" in
  *is-active*) test -e running ;;
  *stop*) test ! -e unstopped && rm running ;;
  *start*) test ! -e stuck && touch running ;;
esac
'''


@unittest.skipUnless(shutil.which("ssh-keygen"), "openssh-client is missing")
class Sent(Nights):
    """The second device makes its part by its own unit and sends it; the first device's part comes from elsewhere."""

    def setUp(self):
        super().setUp()
        (self.tools / "systemctl").write_text(SYSTEMCTL)
        (self.tools / "systemctl").chmod(0o755)
        (self.tools / "running").touch()
        self.keys = [self.user / "key1", self.user / "key2"]
        self.signers, self.come = self.user / "allowed_signers", self.user / "come.part"
        lines = [run([self.programs / PROGRAM, "part", "--home", home, "--sign", key, "-o", self.come], check=True).stderr.splitlines()[-1]
                 for home, key in zip(self.homes, self.keys)]
        self.signers.write_text("\n".join([*lines, ""]))
        self.mark = self.parts / "sent/.stopped"
        self.words = f'WORDS=--home {self.homes[1]} --sign {self.keys[1]}'
        (self.tools / "send").write_text(f'#!/bin/sh\nexec env SSH_ORIGINAL_COMMAND="$1" {RECEIVE} laptop\n')
        (self.tools / "send").chmod(0o755)

    def receive(self, command, data, *words):
        """Has ssh's forced command take what comes."""
        return subprocess.run([RECEIVE, *words], input=data, env={**os.environ, "HOME": str(self.user), "SSH_ORIGINAL_COMMAND": command}, capture_output=True)

    def send(self):
        """Has the second device's part come, with its signature."""
        for command, path in (("part.sig", f"{self.come}.sig"), ("part", self.come)):
            with open(path, "rb") as file:
                self.assertEqual(self.receive(command, file.read(), "laptop").returncode, 0)

    def make_part(self, *lines, killed=False):
        """What systemd does as the unit says, with these lines in its configuration; gives the result of the service. One that is killed runs no further."""
        text = PART_UNIT.read_text()
        environment = {"HOME": str(self.user)}
        for name, value in re.findall(r"^Environment=(\w+)=(.*)$", text, re.MULTILINE):
            environment[name] = value.replace("%h", str(self.user)).replace("%H", socket.gethostname())
        example = [line for line in (CONTRIB / "part.conf").read_text().splitlines() if line and not line.startswith("#")]
        send = 'SEND=send part.sig < "$PART.sig" && send part < "$PART"'
        environment.update(line.split("=", 1) for line in [*example, self.words, send, *lines])

        def ended(word, result):
            """Whether all commands of a word end well."""
            for command in re.findall(rf"^{word}=/bin/sh -ec '(.*)'$", text, re.MULTILINE):
                self.assertNotRegex(command, r"\$\{|%|\\|'")  # systemd would replace these
                if subprocess.run(["/bin/sh", "-ec", command], env={**environment, "SERVICE_RESULT": result}, capture_output=True).returncode:
                    result = "exit-code"
            return result
        result = ended("ExecStartPre", "success")
        if killed:
            result = "signal"
        elif result == "success":
            result = ended("ExecStart", result)
        return ended("ExecStopPost", result)

    def asked(self):
        """What systemd was asked, and forgets that."""
        path = self.tools / "asked"
        told = [line.split()[1:] for line in path.read_text().splitlines()] if path.exists() else []
        path.unlink(missing_ok=True)
        return [" ".join(words).replace("--quiet ", "") for words in told]

    def audited(self, more=""):
        """A night over what was sent, and the first device's part."""
        run([self.programs / PROGRAM, "part", "--home", self.homes[0], "--sign", self.keys[0], "-o", self.parts / "first.part", *more.split()], check=True)
        return self.night(f'<parts directory="{self.parts}" signers="{self.signers}"/>' + ('<slices count="7"/>' if more else ""))

    def test_a_part_is_made_and_sent(self):
        """Syncthing is stopped meanwhile, and started again before the part is sent."""
        self.assertEqual(self.make_part(), "success")
        self.assertEqual(self.asked(), ["is-active syncthing.service", "stop syncthing.service", "start syncthing.service"])
        self.assertEqual((sorted(self.kept()), self.mark.exists()), (["laptop.part", "laptop.part.sig"], False))
        shutil.rmtree(self.parts / "sent")
        status, text, _ = self.audited()
        self.assertEqual((status, "not signed" in text), (0, False), self.printed)

    def test_syncthing_that_did_not_run_is_not_started(self):
        (self.tools / "running").unlink()
        self.assertEqual(self.make_part(), "success")
        self.assertEqual(self.asked(), ["is-active syncthing.service"])
        self.assertEqual(sorted(self.kept()), ["laptop.part", "laptop.part.sig"])

    def test_syncthing_is_started_again_whatever_happens(self):
        """The part isn't made, the program is killed, or Syncthing can't be stopped or started. Nothing is sent then, and the service has failed."""
        for why, words in (("not made", {"lines": ("WORDS=--home /nowhere",)}), ("killed", {"killed": True})):
            self.assertNotEqual(self.make_part(*words.get("lines", ()), killed=words.get("killed", False)), "success", why)
            self.assertEqual((self.asked()[-1], self.mark.exists(), (self.parts / "laptop").exists()), ("start syncthing.service", False, False), why)
        (self.tools / "unstopped").touch()
        self.assertEqual(self.make_part(), "exit-code")
        self.assertEqual((self.asked()[-1], (self.tools / "running").exists(), (self.parts / "laptop").exists()), ("start syncthing.service", True, False))
        (self.tools / "unstopped").unlink()
        (self.tools / "stuck").touch()
        self.assertEqual((self.make_part(), self.mark.exists()), ("exit-code", True))
        (self.tools / "stuck").unlink()
        self.assertEqual(self.make_part(), "success")
        self.assertEqual(((self.tools / "running").exists(), self.mark.exists()), (True, False))

    def test_a_part_of_an_earlier_night_is_not_sent_again(self):
        """It would be told as that night's own, by the time at which it comes."""
        self.make_part()
        shutil.rmtree(self.parts / "laptop")
        self.assertEqual((self.make_part("WORDS=--home /nowhere"), (self.parts / "laptop").exists()), ("exit-code", False))

    def test_what_cannot_be_sent_fails_the_service(self):
        self.assertEqual(self.make_part("SEND=false"), "exit-code")
        self.assertEqual((self.tools / "running").exists(), True)

    def test_the_slice_that_is_due(self):
        """Both machines have the same one, by the day."""
        commented, = re.findall(r"^#WORDS=.* --slice (.*)$", (CONTRIB / "part.conf").read_text(), re.MULTILINE)
        self.assertEqual(self.make_part(f"{self.words} --slice {commented}"), "success")
        shutil.rmtree(self.parts / "sent")
        due = int(time.time() // 86400 % 7) + 1
        status, text, mails = self.audited(f"--slice {due}/7")
        self.assertEqual((status, "and tonight's audit is of" in mails), (0, False), self.printed + mails)

    def test_a_part_that_another_device_made_is_mailed(self):
        """It stands in the second device's directory, and is signed by the first one's key; so is one without a signature."""
        self.send()
        here = self.parts / "laptop"
        signature = here / "laptop.part.sig"
        signature.unlink()
        subprocess.run(["ssh-keygen", "-q", "-Y", "sign", "-n", "syncthing-audit", "-f", self.keys[0], here / "laptop.part"], check=True, capture_output=True)
        for change, why in ((lambda: None, "it isn't known to be by device"), (signature.unlink, "it isn't signed")):
            change()
            status, _, mails = self.audited()
            self.assertEqual((status, f"{here / 'laptop.part'}: refused: {why}" in mails), (2, True), mails)
            self.assertNotIn("syncthing_audit_part_timestamp_seconds", self.metrics.read_text())

    def test_an_older_part_that_is_brought_back_is_mailed(self):
        """It hides what is wrong today. Its age alone doesn't show it, since it is of this day."""
        self.send()
        older = self.kept()
        self.assertEqual(self.audited()[0], 0)
        time.sleep(1.1)  # a part's time is of seconds
        undo = rot(self.room / "made/device2/files/00000/07.bin", 5)
        try:
            run([self.programs / PROGRAM, "part", "--home", self.homes[1], "--sign", self.keys[1], "-o", self.come], check=True)
        finally:
            undo()
        self.send()
        self.assertEqual(self.audited()[0], 1)
        for name, data in older.items():
            (self.parts / "laptop" / name).write_bytes(data)
        status, _, mails = self.audited()
        self.assertEqual((status, "somebody may have brought it back" in mails, "\nmended: " in mails), (6, True, False), mails)

    def test_a_device_writes_its_two_files_alone(self):
        for command in ("", "part ../other", "scp -t .", "part.sig; id", "PART"):
            self.assertEqual(self.receive(command, b"forged", "laptop").returncode, 2, command)
        for name in ("", ".", "..", "../other", "a/b", "-p", "a b", "$(id)"):
            self.assertEqual(self.receive("part", b"forged", name).returncode, 2, name)
        self.assertEqual(self.receive("part", b"forged").returncode, 2)
        self.assertEqual(list(self.parts.iterdir()), [])
        self.assertEqual(self.receive("part", MINE, "laptop").returncode, 0)
        self.assertEqual(self.kept(), {"laptop.part": MINE})
        self.assertEqual((self.parts / "laptop" / "laptop.part").stat().st_mode & 0o777, 0o600)

    def kept(self):
        """What is kept of the second device: the names of its files, and their bytes."""
        return {path.name: path.read_bytes() for path in (self.parts / "laptop").iterdir()}

    def test_what_is_cut_off_takes_no_place(self):
        """Wherever a transfer is cut off, what was there stays. So does it where more comes than a part, or a part whose bytes were changed on the way."""
        self.send()
        had = self.kept()
        part, signature = had["laptop.part"], had["laptop.part.sig"]
        for cut in (0, 1, 9, len(part) // 2, len(part) - 1):
            self.assertEqual(self.receive("part", part[:cut], "laptop").returncode, 2, cut)
        for other in (part + b"x", part[:-1] + b"x", part[:50] + bytes([part[50] ^ 1]) + part[51:], b"\0" * 1000):
            self.assertEqual(self.receive("part", other, "laptop").returncode, 2, other[:20])
        for cut in (0, 1, len(signature) // 2, len(signature) - 3):
            ended = self.receive("part.sig", signature[:cut], "laptop")
            self.assertEqual((ended.returncode, b"isn't a whole part.sig, so what was here before stays" in ended.stderr), (2, True), cut)
        self.assertEqual(self.kept(), had)

    def test_what_a_killed_transfer_left_is_taken_away(self):
        """A part that is half there when all is killed goes at the next start, and no second transfer goes on beside one."""
        self.send()
        had = self.kept()
        with subprocess.Popen([RECEIVE, "laptop"], stdin=subprocess.PIPE, env={**os.environ, "HOME": str(self.user), "SSH_ORIGINAL_COMMAND": "part"},
                              start_new_session=True) as killed:
            killed.stdin.write(MINE[:10] + bytes(1 << 20))
            killed.stdin.flush()
            wait_until("bytes have come", lambda: any(path.name.startswith(".new.") and path.stat().st_size for path in (self.parts / "laptop").iterdir()))
            ended = self.receive("part", MINE, "laptop")
            self.assertEqual((ended.returncode, b"another transfer into" in ended.stderr), (2, True), ended.stderr)
            os.killpg(killed.pid, signal.SIGKILL)
        self.assertEqual(len(self.kept()), len(had) + 1)
        self.assertEqual(self.receive("part", MINE, "laptop").returncode, 0)
        self.assertEqual(self.kept(), {**had, "laptop.part": MINE})


if __name__ == "__main__":
    main()
