#!/usr/bin/env python3
"""Real Syncthing devices on loopback that an observer asks over the wire and by their REST APIs.

    auditor/test/observed_rest.py
"""

import hashlib
import json
import shutil
import ssl

from exporting import main
from half_devices import Halves
from syncthing import FOLDER, VERSIONS, wait_until, wait_until_in_step

UNASKED = ["kinds", "scans"]


class ObservedRest(Halves):
    """What devices' Syncthings say by their REST APIs is added to what an observer sees. One that fails costs that alone."""

    __test__ = True
    kinds = {"three": "receiveonly"}

    def apis(self, **keys):
        """The words that name the REST APIs: of the second device by https, which Syncthing's page takes at the same port. A key may be another one."""
        lines = []
        for device in self.devices:
            name = device.home.parent.name
            words = [device.id, f"http://127.0.0.1:{device.api_port}", keys.get(name, device.api_key)]
            if name == "two":
                certificate = ssl.PEM_cert_to_DER_cert((device.home / "https-cert.pem").read_text())
                words = [device.id, words[1].replace("http", "https"), words[2], keys.get("certificate", hashlib.sha256(certificate).hexdigest())]
            lines.append(" ".join(words) + "\n")
        path = self.room / "apis"
        path.unlink(missing_ok=True)
        path.touch(mode=0o600)
        path.write_text("".join(lines))
        return ["--rest", path]

    @classmethod
    def configure(cls):
        super().configure()
        cls.devices[0].keep_versions("simple", keep="3")

    @staticmethod
    def folder_of(told):
        """The folder of an answer, and its devices by their ids."""
        folder = told["folders"][0]
        return folder, {one["device"]: one for one in folder["devices"]}

    def test_what_is_added(self):
        """Kinds and idleness are seen. By the wire alone a folder is never firm all the same."""
        status, told = self.observed(*self.apis())
        folder, devices = self.folder_of(told)
        self.assertEqual((status, told["verdict"], folder["firm"]), (6, "in-step-as-far-as-audited", "not-known"))
        self.assertEqual({one["kind"] for one in folder["not_known_firm"]}, {"over-the-wire"})
        self.assertEqual([devices[device.id]["kind"] for device in self.devices], ["send-receive", "send-receive", "receive-only"])
        self.assertEqual([devices[device.id]["old_versions"] for device in self.devices], [{"kind": "simple", "place": VERSIONS}, {"kind": "none"}, {"kind": "none"}])
        for one in devices.values():
            self.assertEqual(one["over_the_wire"]["unseen"], ["directories", "permissions", "symlinks", "times", "unscanned"])
            self.assertEqual((one["syncthing_is"], one["syncthing_needs"]), ("idle", {"names": 0, "bytes": 0, "errors": 0}))
        said = " ".join(self.observe(*self.apis()).stdout.split())
        self.assertNotIn("whether a scan is under way", said)
        self.assertIn("receive-only, idle, needs nothing, fails at nothing", said)

    def test_firm_with_walks_of_the_disks(self):
        """With the disks, and with what Syncthing says, nothing is left that isn't seen. Without the latter that isn't known."""
        status, told = self.answer(self.devices, *self.apis())
        folder, devices = self.folder_of(told)
        self.assertEqual((status, told["verdict"], folder["firm"]), (0, "in-step", "firm"))
        self.assertEqual([one["over_the_wire"]["unseen"] for one in devices.values()], [[]] * 3)
        self.assertEqual(devices[self.devices[2].id]["kind"], "receive-only")
        status, told = self.answer(self.devices, *self.apis(one="another"))
        folder, devices = self.folder_of(told)
        self.assertEqual((status, folder["firm"]), (6, "not-known"))
        self.assertEqual([(one["device"], one["kind"]) for one in folder["not_known_firm"]], [(self.devices[0].id, "busy")])

    def test_reverts_are_foretold_as_for_homes(self):
        """What becomes of a receiver's own changes, and what a revert does there, is told as 'run' tells it of the homes."""
        three = self.devices[2]
        before = three.files / "text"
        about = before.stat()
        shutil.copy2(before, self.room / "text")
        before.write_text("my own")
        (three.files / "added").write_text("added")
        three.scan()

        def revert():
            three.api("POST", f"db/revert?folder={FOLDER}")
            wait_until("it is reverted", lambda: before.read_text() == "hello" and not (three.files / "added").exists() and before.stat().st_mtime_ns == about.st_mtime_ns)
            wait_until_in_step(*self.devices)
        self.addCleanup(revert)
        wait_until("the others know of it", lambda: all(device.knows_all_of(three) for device in self.devices[:2]))
        homes = self.of_homes()["folders"][0]["outlook"]
        self.assertIn(("revert", three.id), [(one["act"], one["device"]) for one in homes["choices"]])
        status, told = self.answer(self.devices, *self.apis())
        outlook = told["folders"][0]["outlook"]
        self.assertEqual((status, outlook["fates"], outlook["choices"]), (1, homes["fates"], homes["choices"]))

    def test_a_device_that_cannot_be_asked(self):
        """It costs that device's extra knowledge alone, and is told; the key goes to nobody with another certificate."""
        one, two, three = self.devices
        for keys, device, why in (({"one": "another"}, one, "--rest: not asked: it doesn't take the API key (403 Forbidden)"),
                                  ({"certificate": "00" * 32}, two, "--rest: not asked: whoever answers there has another certificate than the one that is named"),
                                  ({}, three, "--rest: not asked: another device answers there")):
            words = self.apis(**keys)
            if device is three:
                words[1].write_text(words[1].read_text().replace(f"{three.id} http://127.0.0.1:{three.api_port} {three.api_key}",
                                                                 f"{three.id} http://127.0.0.1:{one.api_port} {one.api_key}"))
            ran = self.observe("--json", *words)
            _, devices = self.folder_of(json.loads(ran.stdout))
            self.assertIn(f"{self.address(device)}: {why}", ran.stderr)
            self.assertEqual(ran.returncode, 6)
            self.assertEqual({of for of, said in devices.items() if "syncthing_is" not in said and UNASKED[0] in said["over_the_wire"]["unseen"]}, {device.id})
        words = self.apis()
        words[1].chmod(0o640)
        ran = self.observe(*words)
        self.assertEqual((ran.returncode, ran.stdout), (3, ""))
        self.assertIn("others may read or write it (chmod 600)", ran.stderr)

    def test_a_scan_before_the_look(self):
        """What no scan has taken waits. With --rescan the devices scan first, and the others take it."""
        one = self.devices[0]
        (one.files / "text").write_text("a change")
        ran = self.observe("--json", *self.apis())
        self.assertEqual([name["name"] for name in json.loads(ran.stdout)["folders"][0]["live"]["in_motion"]], ["text"])
        wait_until("the change is taken", lambda: self.is_taken(self.observe("--json", "--rescan", *self.apis())))
        self.assertEqual([device.files.joinpath("text").read_text() for device in self.devices], ["a change"] * 3)
        (one.files / "text").write_text("hello")
        one.scan()
        wait_until_in_step(*self.devices)

    @staticmethod
    def is_taken(ran):
        """Whether nothing waits by an answer, and nothing is wrong."""
        folder = json.loads(ran.stdout)["folders"][0]
        return ran.returncode == 6 and not folder["live"]["in_motion"] and folder["names"] == 6

    def test_what_syncthing_fails_at(self):
        """A directory that is deleted elsewhere, and has an ignored file: Syncthing can't delete it, and says so."""
        one, two = self.devices[:2]
        (one.files / "doomed").mkdir()
        one.scan()
        wait_until_in_step(*self.devices)
        two.api("POST", f"db/ignores?folder={FOLDER}", {"ignore": ["kept"]})
        (two.files / "doomed" / "kept").write_text("kept")
        (one.files / "doomed").rmdir()
        one.scan()
        wait_until("it fails", lambda: two.api("GET", f"db/status?folder={FOLDER}")["errors"] == 1)
        ran = self.observe("--json", *self.apis())
        folder, devices = self.folder_of(json.loads(ran.stdout))
        said = devices[two.id]["syncthing_needs"]
        self.assertEqual((said["names"], said["errors"], [first["name"] for first in said["first_errors"]]), (1, 1, ["doomed"]))
        self.assertIn("ignored", said["first_errors"][0]["why"])
        self.assertEqual({of for of, about in devices.items() if about["syncthing_needs"]["errors"]}, {two.id})
        told = " ".join(self.observe(*self.apis()).stdout.split())
        self.assertRegex(told, r"Syncthing itself says of docs on [A-Z2-7]{7}: send-receive, idle, needs 1 name \(.*\), fails at 1 name, first at doomed \(")
        (two.files / "doomed" / "kept").unlink()
        two.api("POST", f"db/ignores?folder={FOLDER}", {"ignore": []})
        wait_until_in_step(*self.devices)


if __name__ == "__main__":
    main()
