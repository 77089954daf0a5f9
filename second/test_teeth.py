#!/usr/bin/env python3
"""The headline has teeth: with one rule wrong it is false. Beside each wrong rule (wrong.py) stand a cluster that is
settled and a list of quiet steps. After them a store holds something else under the wrong rule, and under the right one
each store holds what it held.

    second/test_teeth.py
"""

import unittest

import story
import verdict
from cases import BOTH, DOCS, docs, empty_cluster, entry, put, text
from cluster.core import Cluster
from cluster.cut import first_fault, stores_of
from cluster.index import View
from cluster.record import Node, Record, deletion
from cluster.refusal import Why
from cluster.replica import Pull, Replica
from cluster.step import Announce, Deliver, Finish, LocalStep, Reset, Scan, StartPull, Step
from wrong import (EndsWithoutAskingAgain, LooksFirst, PassesOldForeignWithoutOwn, ResetKeepsViews,
                   TakesVersionsUnmerged, TrustsAnOldLook)

NAME = "hello"
NEW, OLD = text("hello", 2000), text("old", 1000)


def old_record(version: tuple) -> Record:
    """What another device once said of the name."""
    return entry(NAME, OLD, 1, version, sequence=1)


class Headline(unittest.TestCase):
    """What every list of quiet steps from a settled cluster does to the stores."""

    def changes(self, cluster: Cluster, steps: list[Step], device=verdict.Device) -> dict:
        """Takes these quiet steps, from a cluster that this checker calls settled; answers what each store that isn't
        kept holds then."""
        self.assertIsNone(first_fault(cluster, device))
        self.assertFalse([step for step in steps if isinstance(step, LocalStep)])
        before = stores_of(cluster)
        for step in steps:
            cluster.apply(step)
        return {device: nodes for (device, _), nodes in stores_of(cluster).items() if nodes != before[device, DOCS]}


def held(**nodes: Node) -> dict:
    """What a store holds: these nodes, whatever their times are."""
    return {name: (node.kind, node.data, node.target) for name, node in nodes.items()}


class OldForeignRecordWithoutOwn(Headline):
    """A file was deleted, before one of the devices had it. That device still knows the old record, and of no
    deletion."""

    def cluster(self, has_own: bool) -> Cluster:
        """Devices 1 and 2 have the deletion. Device 3 has a pull of the file, whose bytes it received before; and the
        record of the deletion, or none."""
        made = empty_cluster(BOTH, BOTH, BOTH)
        old = old_record(((1, 1),))
        for device in (1, 2, 3) if has_own else (1, 2):
            put(made, device, deletion(NAME, old, 1, ((1, 2),)), None)
        docs(made, 3).views[2] = View(12, 1, {NAME: old})
        docs(made, 3).pulls[NAME] = Pull(old, {0: OLD.data})
        return made

    STEPS = [Finish(3, DOCS, NAME)]

    def test_under_the_wrong_rule_the_deleted_file_comes_back(self):
        changes = self.changes(self.cluster(has_own=False), self.STEPS, PassesOldForeignWithoutOwn)
        self.assertEqual(changes, {3: held(hello=OLD)})

    def test_under_the_right_rule_the_cluster_is_not_settled(self):
        self.assertEqual(first_fault(self.cluster(has_own=False)), ("ViewAhead", DOCS.encode(), NAME.encode(), 3))

    def test_with_the_own_record_that_the_right_rule_asks_for_all_is_kept(self):
        for checker in (verdict.Device, PassesOldForeignWithoutOwn):
            self.assertEqual(self.changes(self.cluster(has_own=True), self.STEPS, checker), {})


class CommitOfAnOldLook(Headline):
    """A scanner looked at a name when no file was there, and hasn't told yet what it saw. Since then the file was made,
    and the devices agree on it."""

    def cluster(self, replica: type[LooksFirst]) -> Cluster:
        """Two devices have the file, and are connected."""
        made = empty_cluster(BOTH, BOTH, replica=replica)
        for device in (1, 2):
            put(made, device, entry(NAME, NEW, 1, ((1, 1),)), NEW)
        docs(made, 1).seen[NAME] = None
        for step in story.connect(1, 2):
            made.apply(step)
        return made

    STEPS = [Scan(1, DOCS, NAME), Announce(1, 2, DOCS), Deliver(2, 1), StartPull(2, DOCS, NAME), Finish(2, DOCS, NAME)]

    def test_under_the_wrong_rule_the_other_device_loses_its_file(self):
        self.assertEqual(self.changes(self.cluster(TrustsAnOldLook), self.STEPS), {2: held()})

    def test_under_the_right_rule_all_is_kept(self):
        self.assertEqual(self.changes(self.cluster(LooksFirst), self.STEPS), {})
        self.assertEqual(self.cluster(LooksFirst).apply(self.STEPS[0]), Why.Stale)


class EndOfAPullThatIsNotWanted(Headline):
    """A device began to pull a file. Then it got a newer one, and the pull still stands, with all its blocks."""

    def cluster(self, replica: type[Replica]) -> Cluster:
        """Two devices have the newer file."""
        made = empty_cluster(BOTH, BOTH, replica=replica)
        for device in (1, 2):
            put(made, device, entry(NAME, NEW, 1, ((1, 2),)), NEW)
        docs(made, 2).pulls[NAME] = Pull(old_record(((1, 1),)), {0: OLD.data})
        return made

    STEPS = [Finish(2, DOCS, NAME)]

    def test_under_the_wrong_rule_the_old_file_is_written_over_the_newer_one(self):
        self.assertEqual(self.changes(self.cluster(EndsWithoutAskingAgain), self.STEPS), {2: held(hello=OLD)})

    def test_under_the_right_rule_all_is_kept(self):
        self.assertEqual(self.changes(self.cluster(Replica), self.STEPS), {})


class ResetThatKeepsViews(Headline):
    """Lines were added to a file, and a device still knows the old record of it. Its date is later than the new one's.
    Then the device's index is reset, and the file scanned anew."""

    NOTES, BEGINNING = text("one\ntwo\n", 1000), text("one\n", 2000)

    def cluster(self, replica: type[Replica]) -> Cluster:
        """Two devices have the newer file, and the second one the old record in its view of the first one."""
        made = empty_cluster(BOTH, BOTH, replica=replica)
        for device in (1, 2):
            put(made, device, entry("notes", self.NOTES, 1, ((1, 2),)), self.NOTES)
        docs(made, 1).index.max_sequence = 2
        docs(made, 2).views[1] = View(11, 1, {"notes": entry("notes", self.BEGINNING, 1, ((1, 1),), sequence=1)})
        return made

    STEPS = [Reset(2, 20), Scan(2, DOCS, "notes"), *story.connect(1, 2), *story.fetch(2, 1, "notes")]

    def test_under_the_wrong_rule_the_old_file_is_written_over_the_newer_one(self):
        changes = self.changes(self.cluster(ResetKeepsViews), self.STEPS)
        copy = "notes.sync-conflict-1000-0000000000000002"
        self.assertEqual(changes, {2: held(notes=self.BEGINNING, **{copy: self.NOTES})})

    def test_under_the_right_rule_all_is_kept(self):
        self.assertEqual(self.changes(self.cluster(Replica), self.STEPS), {})


class VersionThatIsNotMerged(Headline):
    """The story of three devices (story.py)."""

    def test_under_the_wrong_rule_all_devices_lose_the_second_line(self):
        changes = self.changes(story.settled_cluster(TakesVersionsUnmerged), story.QUIET)
        self.assertEqual(changes, dict.fromkeys((1, 2, 3), held(list=text(story.ONE_LINE))))

    def test_under_the_right_rule_all_is_kept(self):
        self.assertEqual(self.changes(story.settled_cluster(Replica), story.QUIET), {})

    def test_both_rules_lead_to_the_same_settled_cluster(self):
        one, other = (story.settled_cluster(replica) for replica in (TakesVersionsUnmerged, Replica))
        for device in (1, 2, 3):
            for part in ("index", "views", "store", "pulls"):
                self.assertEqual(getattr(docs(one, device), part), getattr(docs(other, device), part))
        self.assertEqual(one.links, other.links)


if __name__ == "__main__":
    unittest.main()
