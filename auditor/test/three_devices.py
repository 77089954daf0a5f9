#!/usr/bin/env python3
"""The audit of three real Syncthing devices on loopback.

    auditor/test/three_devices.py
"""

import os

from exporting import Exporting, main, without_firmness
from syncthing import FOLDER, wait_until, wait_until_in_step


class ThreeDevices(Exporting):
    """Three devices that send and receive, the third of which was off for a while."""

    names = ("one", "two", "three")

    @classmethod
    def setUpClass(cls):
        super().setUpClass()
        cls.three = cls.devices[2]

    def test_in_step_is_settled(self):
        self.assertEqual(self.report(), ["settled", f"folder {FOLDER}: 6 names, 1 deleted, 3 devices"])

    def test_a_part_from_each_is_joined(self):
        """Each part is made of its own home alone; joined they say what the homes do, in whichever order they are given."""
        settled = self.report()
        parts = [self.part(device) for device in self.devices]
        for some in (parts, parts[::-1]):
            ran = self.check_parts(some)
            self.assertEqual((ran.returncode, without_firmness(ran.stdout.splitlines())), (0, settled), ran.stderr)
        why = f"no home or part of it is given ({self.three.id})"
        ran = self.check_parts(parts[:2], "--strict")
        self.assertEqual((ran.returncode, ran.stdout, why in ran.stderr), (2, "", True), ran.stderr)
        ran = self.check_parts(parts[:2])
        self.assertEqual((ran.returncode, why in ran.stdout), (6, True), ran.stdout)

    def test_each_device_has_a_view_of_each_other(self):
        cut = self.document()["cut"]
        self.assertEqual([len(share["views"]) for share in cut["folders"][0]["devices"]], [2, 2, 2])
        self.assertEqual(len(cut["links"]), 3)

    def test_a_deletion_that_came_back(self):
        path = self.three.files / "doomed"
        path.write_text("doomed")
        try:
            self.assertEqual(self.verdict(), self.fault("StoreDiffers", "doomed", self.three))
        finally:
            path.unlink()

    def test_a_symlink_that_leads_elsewhere(self):
        path = self.three.files / "link"
        path.unlink()
        path.symlink_to("text")
        try:
            self.assertEqual(self.verdict(), self.fault("StoreDiffers", "link", self.three))
        finally:
            path.unlink()
            path.symlink_to("folder/large")

    def test_a_file_in_place_of_a_directory(self):
        path = self.two.files / "folder"
        path.rename(self.room / "aside")
        path.touch()
        try:
            self.assertEqual(self.verdict("--names", "folder"), self.fault("StoreDiffers", "folder", self.two))
        finally:
            path.unlink()
            (self.room / "aside").rename(path)

    def test_a_file_that_is_gone(self):
        path = self.two.files / "empty"
        times = path.stat()
        path.unlink()
        try:
            self.assertEqual(self.verdict(), self.fault("StoreDiffers", "empty", self.two))
        finally:
            path.touch()
            os.utime(path, ns=(times.st_atime_ns, times.st_mtime_ns))

    def test_a_new_file_that_no_scan_has_seen(self):
        path = self.two.files / "new"
        path.touch()
        try:
            self.assertEqual(self.verdict(), self.fault("NotWinner", "new"))
        finally:
            path.unlink()


class LeftBehind(Exporting):
    """The third device was off while the others changed a file; then its own disk was changed, too."""

    names = ("one", "two", "three")

    def test_until_all_are_in_step_again(self):
        three = self.devices[2]
        before = self.part(self.one).read_bytes()
        self.one.start()
        self.two.start()
        (self.one.files / "text").write_text("changed on one")
        self.one.scan()
        wait_until_in_step(self.one, self.two)
        self.stop()
        self.assertEqual(self.verdict(), self.fault("RecordDiffers", "text", three))
        self.assertEqual(self.convergence, [f"converging: {FOLDER}"])
        self.assert_a_person_reads_of_it_once(three)
        self.assert_parts_are_of_one_moment(before)

        (three.files / "empty").write_text("written while it was off")
        self.assertEqual(self.verdict("--names", "empty"), self.fault("StoreDiffers", "empty", three))
        self.assertEqual(self.convergence, [f"not converging: {self.failure('StoreUnclean', 'empty', three)}"])

        self.start()
        wait_until_in_step(*self.devices)
        for device in self.devices:
            self.assertEqual((device.files / "empty").read_text(), "written while it was off")
            self.assertEqual((device.files / "text").read_text(), "changed on one")
            self.assertEqual(list(device.files.glob("*.sync-conflict-*")), [])
        self.stop()
        self.assertEqual(self.verdict(), "settled")

    def assert_a_person_reads_of_it_once(self, three):
        """One entry tells that the third device is behind; what the others know of it isn't told by itself."""
        ran = self.on_homes("check", [device.home for device in self.devices], "--syncaudit", self.auditor)
        self.assertEqual(ran.returncode, 1, ran.stderr)
        entries = [entry for entry in ran.stdout.split("\n\n") if "to do:" in entry]
        self.assertEqual(len(entries), 1, ran.stdout)
        self.assertEqual(entries[0].splitlines()[0], f"text  (in {FOLDER}, 14 bytes)")
        self.assertIn(f"  {three.id[:7]}: behind: hasn't taken what is newest (modified ", entries[0])
        self.assertIn("  still to come: 1 pair of a name and a device\n  proved for devices that keep a few rules ", ran.stdout)

    def assert_parts_are_of_one_moment(self, before):
        """Parts of the three devices say what their homes do; with the first device's part of before, what changed since is in
        motion, or they are refused."""
        parts = [self.part(device) for device in self.devices]
        ran = self.check_parts(parts)
        self.assertEqual(without_firmness(ran.stdout.splitlines()), self.report())
        parts[0].write_bytes(before)
        ran = self.check_parts(parts, "--strict")
        self.assertEqual((ran.returncode, ran.stdout), (2, ""))
        self.assertIn("it is of an earlier moment than", ran.stderr)
        ran = self.check_parts(parts)
        self.assertEqual(ran.returncode, 6, ran.stderr)
        self.assertIn(f"in motion: {FOLDER} text on {self.number(self.one)}: later", ran.stdout.splitlines())


class Chain(Exporting):
    """The first and the third device share the folder with the second alone."""

    names = ("one", "two", "three")

    @classmethod
    def configure(cls):
        one, two, three = cls.devices
        for device, others in ((one, [one, two]), (two, cls.devices), (three, [two, three])):
            device.configure(others)

    def test_views_and_links_of_those_that_share_with_each_other(self):
        self.assertEqual(self.verdict(), "settled")
        cut = self.document()["cut"]
        numbers = [self.number(device) for device in self.devices]
        views = {share["device"]: {view["of"] for view in share["views"]} for share in cut["folders"][0]["devices"]}
        self.assertEqual([views[number] for number in numbers], [{numbers[1]}, {numbers[0], numbers[2]}, {numbers[1]}])
        self.assertEqual({frozenset((link["a"], link["b"])) for link in cut["links"]},
                         {frozenset(numbers[:2]), frozenset(numbers[1:])})


class EachKind(Exporting):
    """A device that sends only, one that does both, one that receives only."""

    names = ("one", "two", "three")
    kinds = {"one": "sendonly", "three": "receiveonly"}

    def test_kinds(self):
        three = self.devices[2]
        self.assertEqual(self.verdict(), "settled")
        kinds = {share["device"]: share["kind"] for share in self.document()["cut"]["folders"][0]["devices"]}
        self.assertEqual([kinds[self.number(device)] for device in self.devices],
                         ["send-only", "send-receive", "receive-only"])

        self.start()
        (three.files / "added").write_text("added")
        three.scan()
        wait_until("the others know of the addition", lambda: all(
            device.knows_all_of(three) for device in (self.one, self.two)))
        self.stop()
        self.assertEqual(self.verdict(), self.fault("NotWinner", "added"))
        self.assertEqual(self.verdict("--names", "text"), "settled")


if __name__ == "__main__":
    main()
