#!/usr/bin/env python3
"""Firm cuts: what is firm, for which reason a cut isn't, and what free peers do to firm cuts and to settled ones.

    second/test_firm.py
"""

import random
import unittest
from collections import Counter
from dataclasses import replace

import firm
import story
import verdict
from cases import BOTH, DOCS, docs, empty_cluster, entry, put, text
from cluster.core import Cluster
from cluster.cut import certify, cut_of, first_fault, stores_of
from cluster.index import View
from cluster.link import IndexUpdate
from cluster.record import Record, deletion
from cluster.refusal import Moved
from cluster.replica import Pull
from cluster.step import Finish, LocalStep, StartPull
from cluster.version import is_at_most
from free import FreeReplica
from free_runs import Firm, FirmMaking, firm_rows, free_replica, run_from_empty, run_from_firm
from runs import Contradiction, Walk
from settled import Making, settled_cluster
from wrong import EndsWithoutAskingAgain, TakesVersionsUnmerged

NAME = "hello"
HELLO = text("hello")
AT = ((1, 2), (2, 1))
BELOW, BESIDE = ((1, 1), (2, 1)), ((1, 1), (3, 1))


def record(version: tuple, content: str = "hello", **fields) -> Record:
    """A record of the file."""
    return replace(entry(NAME, text(content), 1, version, sequence=1), **fields)


def firm_cluster() -> Cluster:
    """Three devices with the same record of a file, none of which knows of another's."""
    made = empty_cluster(BOTH, BOTH, BOTH)
    for device in (1, 2, 3):
        put(made, device, record(AT, sequence=0), HELLO)
    made.links[1, 2].is_up = made.links[1, 3].is_up = True
    return made


def view(cluster: Cluster, device: int, other: int, known: Record) -> None:
    """Gives the device this record in its view of the other one."""
    docs(cluster, device).views[other] = View(10 + other, 1, {known.name: known})


def fault(cluster: Cluster):
    """Why the cluster's cut isn't firm: reason, name and device; None where it is."""
    cut = cut_of(cluster)
    found = firm.first_fault(verdict.Cut(cut), certify(cut))
    return found and (found[0], found[2].decode(), found[3])


class Verdicts(unittest.TestCase):
    """Which cuts are firm, and which reason is told of the others."""

    def test_one_version_everywhere_and_nothing_above_it(self):
        made = firm_cluster()
        self.assertIsNone(fault(made))
        view(made, 1, 2, record(AT))
        view(made, 2, 3, record(BELOW, "old"))
        made.links[1, 2].to_a.append(IndexUpdate(DOCS, (record(BELOW, "old"),)))
        docs(made, 3).pulls[NAME] = Pull(record(((1, 2),), "older"))
        self.assertIsNone(fault(made))

    def test_an_own_record_at_another_version(self):
        for version in (BELOW, BESIDE, AT + ((3, 1),)):
            made = firm_cluster()
            put(made, 3, record(version), HELLO)
            self.assertIsNone(first_fault(made))
            self.assertEqual(fault(made)[:2], ("VersionDiffers", NAME))

    def test_a_record_from_elsewhere_that_is_above_or_beside(self):
        for version in (BESIDE, AT + ((3, 1),)):
            made = firm_cluster()
            docs(made, 3).pulls[NAME] = Pull(record(version))
            self.assertEqual(fault(made), ("PullNotBelow", NAME, 3))
            made.links[1, 3].to_b.append(IndexUpdate(DOCS, (record(version),)))
            self.assertEqual(fault(made), ("FlightNotBelow", NAME, 3))
            view(made, 2, 1, record(version))
            self.assertEqual(fault(made), ("ViewNotBelow", NAME, 2))
            self.assertIsNone(first_fault(made))

    def test_what_keeps_it_from_being_settled_comes_first(self):
        made = firm_cluster()
        view(made, 2, 1, record(BESIDE))
        view(made, 3, 1, record(AT, "other"))
        self.assertEqual(fault(made), ("ViewAhead", NAME, 3))

    def test_an_invalid_record_is_passed_over(self):
        made = firm_cluster()
        view(made, 2, 1, record(BESIDE, "other", invalid=True))
        self.assertIsNone(fault(made))

    def test_a_deletion_that_a_device_knows_by_hearsay(self):
        made = empty_cluster(BOTH, BOTH)
        gone = deletion(NAME, record(AT), 1, AT)
        put(made, 1, gone, None)
        view(made, 2, 1, replace(gone, sequence=1))
        self.assertIsNone(fault(made))
        view(made, 2, 1, replace(gone, sequence=1, version=AT + ((3, 1),)))
        self.assertEqual(fault(made), ("ViewNotBelow", NAME, 2))

    def test_what_is_written(self):
        made = firm_cluster()
        cut = cut_of(made)
        read = cut | {"rows": certify(cut)}
        folder = b"folder docs: 1 names, 0 deleted, 3 devices"
        self.assertEqual(firm.report(read), ([b"firm", folder], 0))
        self.assertEqual(firm.explanation(read), ([b"firm"], 0))
        view(made, 2, 1, record(BESIDE))
        docs(made, 3).pulls[NAME] = Pull(record(BESIDE))
        cut = cut_of(made)
        read = cut | {"rows": certify(cut)}
        self.assertEqual(firm.report(read), ([b"not firm: ViewNotBelow docs hello on 2", folder], 1))
        self.assertEqual(firm.explanation(read),
                         ([b"ViewNotBelow docs hello on 2", b"PullNotBelow docs hello on 3"], 1))


class Story(unittest.TestCase):
    """The story of three devices, which story.py tells: they are settled and not firm, and lose a file."""

    def test_settled_and_not_firm(self):
        made = story.settled_cluster(TakesVersionsUnmerged)
        self.assertIsNone(first_fault(made))
        self.assertEqual(fault(made), ("VersionDiffers", story.LIST, 1))

    def test_each_step_moves_and_the_second_line_is_lost_without_a_copy(self):
        made = story.settled_cluster(TakesVersionsUnmerged)
        two_lines = {story.LIST: text(story.TWO_LINES)}
        for device in (story.ANNA, story.BEN, story.CLEO):
            self.assertEqual(stores_of(made)[device, DOCS], stores_of_nodes(two_lines))
        self.assertFalse([step for step in story.QUIET if isinstance(step, LocalStep)])
        for step in story.QUIET:
            self.assertEqual(made.apply(step), Moved.Changed, step)
        one_line = {story.LIST: text(story.ONE_LINE, story.LATER)}
        for device in (story.ANNA, story.BEN, story.CLEO):
            self.assertEqual(docs(made, device).store.nodes, one_line)


def stores_of_nodes(nodes: dict) -> dict:
    """Kind, bytes and target of each of these nodes."""
    return {name: (node.kind, node.data, node.target) for name, node in nodes.items()}


class FreeRuns(unittest.TestCase):
    """Some of the runs that free_runs.py makes by the thousand."""

    def test_what_is_firm_stays_firm(self):
        answers = Counter()
        for number in range(20):
            run_from_firm(FirmMaking(random.Random(number)), answers)
        self.assertLess({("Deliver", "Changed"), ("Finish", "Dropped"), ("Scan", "Unchanged")}, set(answers))
        self.assertNotIn(("Finish", "Changed"), answers)

    def test_free_peers_come_to_firm_cuts_of_themselves(self):
        answers = Counter()
        self.assertIn(True, [run_from_empty(Making(random.Random(number)), answers) for number in (1, 2, 3)])
        self.assertIn(("Finish", "Changed"), answers)

    def test_free_peers_lose_files_where_a_cut_is_settled_alone(self):
        lost = 0
        for number in range(20):
            making = Making(random.Random(number))
            walk = Walk(making, settled_cluster(making, free_replica(making)))
            before = stores_of(walk.cluster)
            for _ in range(40):
                walk.take(walk.quiet_step())
            lost += stores_of(walk.cluster) != before
        self.assertGreater(lost, 5)


class WantsDeletions(FreeReplica):
    """A peer that takes a deletion over though it has no record of the name."""

    def may_want(self, record: Record) -> bool:
        """Whether the record may be taken over."""
        return self.own(record.name) is None or super().may_want(record)


class RulesThatAreNeeded(unittest.TestCase):
    """Rules of free peers without which what is firm doesn't stay firm."""

    def kept(self, cluster: Cluster, *steps) -> None:
        """Takes the steps, from a firm cluster, and looks that all is kept."""
        was = Firm(cluster, firm_rows(cluster))
        for step in steps:
            self.assertEqual(cluster.apply(step), Moved.Changed)
            was.check(cluster, step)

    def test_a_pull_is_asked_again_at_its_end(self):
        made = empty_cluster(BOTH, BOTH, BOTH, replica=EndsWithoutAskingAgain)
        for device in (1, 2, 3):
            put(made, device, record(AT, sequence=0), HELLO)
        docs(made, 2).pulls[NAME] = Pull(record(BELOW, "old"), {0: b"old"})
        with self.assertRaises(Contradiction):
            self.kept(made, Finish(2, DOCS, NAME))
        self.assertEqual(docs(made, 2).store.nodes, {NAME: text("old")})

    def test_no_deletion_is_taken_over_without_an_own_record(self):
        made = empty_cluster(BOTH, BOTH, replica=WantsDeletions)
        gone = deletion(NAME, record(AT), 1, AT)
        put(made, 1, gone, None)
        view(made, 2, 1, replace(gone, sequence=1))
        docs(made, 2).random = SurelyTaken()
        with self.assertRaises(Contradiction):
            self.kept(made, StartPull(2, DOCS, NAME), Finish(2, DOCS, NAME))
        self.assertFalse(is_at_most(docs(made, 2).own(NAME).version, AT))


class SurelyTaken(random.Random):
    """Numbers by which a pull isn't dropped, and a version grows."""

    def random(self) -> float:
        """Above each bound."""
        return 0.9

    def choice(self, items):
        """The last one."""
        return items[-1]


if __name__ == "__main__":
    unittest.main()
