#!/usr/bin/env python3
"""What prevails: which cuts do, what orderly peers make of them, and what happens where one condition is missing.

    second/test_converge.py
"""

import random
import unittest
from collections import Counter
from dataclasses import replace
from functools import partial

from cases import BOTH, CHANGED, DOCS, RECEIVE, SEND, docs, empty_cluster, entry, put, see, text
from cluster.core import Cluster
from cluster.index import View
from cluster.record import Node, Record, deletion
from cluster.replica import Pull, Replica
from cluster.step import Finish, Scan, StartPull
from bring import bring, most_steps
from converge_runs import Prevailing, bring_one, come_to_end, run_of_brings, run_of_orderly_peers, run_to_the_end
from free import FreeReplica
from orderly import OrderlyReplica
from prevailing import PrevailingMaking
from prevails import broken
from runs import Contradiction, Walk
from settled import Making
from test_firm import SurelyTaken

NAME = "hello"
OLD, NEW = text("old"), text("new", 2000)
LOW, TOP = ((1, 1),), ((1, 2),)


def record(version: tuple, node: Node = NEW, **fields) -> Record:
    """The record of the file."""
    return replace(entry(NAME, node, 1, version, sequence=1), **fields)


def give(cluster: Cluster, device: int, version: tuple, node: Node) -> None:
    """Gives a device the file under this version."""
    put(cluster, device, record(version, node, sequence=0), node)


def hear(cluster: Cluster, device: int, other: int, known: Record) -> None:
    """Gives the device this record in its view of the other one, which is of an earlier index."""
    docs(cluster, device).views[other] = View(9, 1, {known.name: known})


def cluster_of(*held: tuple[tuple, Node], kinds: tuple = (), replica=OrderlyReplica) -> Cluster:
    """Devices that have these versions of the file, by these rules."""
    made = empty_cluster(*(kinds or [BOTH] * len(held)), replica=replica)
    for device, (version, node) in enumerate(held, start=1):
        give(made, device, version, node)
    return made


class Cuts(unittest.TestCase):
    """Which conditions don't hold of a cut."""

    def conditions(self, cluster: Cluster) -> list[str]:
        """Those that don't hold."""
        return [condition for condition, _ in broken(cluster)]

    def test_a_device_behind_another_one(self):
        self.assertEqual(self.conditions(cluster_of((TOP, NEW), (LOW, OLD))), [])

    def test_a_device_without_record(self):
        made = empty_cluster(BOTH, BOTH)
        give(made, 1, TOP, NEW)
        self.assertEqual(self.conditions(made), [])

    def test_an_old_record_on_its_way_and_one_pulled(self):
        made = cluster_of((TOP, NEW), (LOW, OLD))
        docs(made, 2).pulls[NAME] = Pull(record(TOP))
        hear(made, 1, 2, record(LOW, OLD))
        self.assertEqual(self.conditions(made), [])

    def test_concurrent_records_below_the_top(self):
        made = cluster_of((((1, 1), (2, 1), (3, 1)), NEW), (((2, 1),), OLD), (((3, 1),), text("older")))
        self.assertEqual(self.conditions(made), ["chain"])

    def test_concurrent_tops(self):
        self.assertEqual(self.conditions(cluster_of((((1, 1),), NEW), (((2, 1),), OLD))), ["top", "chain"])

    def test_the_top_is_only_heard_of(self):
        made = cluster_of((LOW, OLD), (LOW, OLD))
        hear(made, 2, 1, record((*LOW, (3, 1))))
        self.assertEqual(self.conditions(made), ["top"])

    def test_one_version_with_two_contents(self):
        self.assertEqual(self.conditions(cluster_of((TOP, NEW), (TOP, OLD))), ["agreement"])

    def test_a_local_change(self):
        made = cluster_of((TOP, NEW), (LOW, OLD), kinds=(BOTH, RECEIVE))
        put(made, 2, record(LOW, text("mine"), invalid=True), text("mine"))
        self.assertEqual(self.conditions(made), ["no local change"])

    def test_an_unclean_file(self):
        made = cluster_of((TOP, NEW), (LOW, OLD))
        docs(made, 2).store.nodes[NAME] = text("longer than before")
        self.assertEqual(self.conditions(made), ["clean", "content"])

    def test_other_bytes_that_look_clean(self):
        made = cluster_of((TOP, NEW), (LOW, OLD))
        docs(made, 1).store.nodes[NAME] = replace(NEW, data=b"NEW")
        self.assertEqual(self.conditions(made), ["content"])

    def test_a_send_only_device_behind(self):
        made = cluster_of((TOP, NEW), (LOW, OLD), kinds=(BOTH, SEND))
        self.assertEqual(self.conditions(made), ["takes changes"])

    def test_a_send_only_device_without_the_file_that_was_deleted(self):
        made = empty_cluster(BOTH, SEND)
        put(made, 1, deletion(NAME, record(TOP), 1, TOP), None)
        hear(made, 2, 1, record(LOW, OLD))
        self.assertEqual(self.conditions(made), [])

    def test_a_record_that_counts_more_of_a_devices_changes(self):
        self.assertEqual(self.conditions(cluster_of((((1, 1), (2, 1)), NEW), (LOW, OLD))), ["own counter"])


class Runs(unittest.TestCase):
    """Some of the runs that converge_runs.py makes by the thousand."""

    def test_what_prevails_goes_on_prevailing(self):
        answers = Counter()
        for number in range(8):
            run_of_orderly_peers(PrevailingMaking(random.Random(number)), answers)
        self.assertLess({("Finish", "Changed"), ("Finish", "Dropped"), ("Scan", "StoreFault")}, set(answers))

    def test_it_comes_to_all(self):
        answers = Counter()
        for number in range(5):
            run_to_the_end(PrevailingMaking(random.Random(number)), answers)
        self.assertIn(("Finish", "Changed"), answers)

    def test_each_name_is_brought_to_each_device(self):
        answers = Counter()
        for number in range(12):
            run_of_brings(PrevailingMaking(random.Random(number)), answers)
        self.assertEqual({answer for _, answer in answers}, {"Changed"})
        self.assertLess({("Announce", "Changed"), ("Ask", "Changed"), ("Finish", "Changed")}, set(answers))

    def test_nothing_is_brought_to_a_send_only_device(self):
        made = cluster_of((TOP, NEW), (LOW, OLD), kinds=(BOTH, SEND), replica=Replica)
        walk = Walk(Making(random.Random(1)), made)
        with self.assertRaisesRegex(Contradiction, "isn't done"):
            bring_one(walk, Unchecked(), (DOCS.encode(), NAME.encode()), 2)
        self.assertEqual(walk.answers["StartPull", "KindForbids"], 1)

    def test_no_run_is_shorter_than_its_bound_where_all_is_fetched(self):
        made = cluster_of((TOP, NEW), (LOW, OLD), replica=Replica)
        walk = Walk(Making(random.Random(1)), made)
        bring_one(walk, Unchecked(), (DOCS.encode(), NAME.encode()), 2)
        self.assertEqual(sum(walk.answers.values()), most_steps(docs(made, 1).own(NAME)))
        self.assertEqual(docs(made, 2).store.nodes, {NAME: NEW})

    def test_what_a_view_with_a_gap_lacks_is_not_brought(self):
        made = cluster_of((TOP, NEW), (LOW, OLD), replica=Replica)
        docs(made, 2).views[1] = View(*docs(made, 1).index.point)
        walk = Walk(Making(random.Random(1)), made)
        with self.assertRaisesRegex(Contradiction, "isn't done"):
            bring_one(walk, Unchecked(), (DOCS.encode(), NAME.encode()), 2)
        self.assertEqual(walk.answers["Announce", "NothingToDo"], 1)

    def test_no_run_has_more_steps_than_its_bound(self):
        made = cluster_of((TOP, NEW), (LOW, OLD), replica=Replica)
        taken = []
        with self.assertRaisesRegex(Contradiction, "too many steps"):
            bring(made, 2, 1, DOCS, NAME, taken.append)


class Unchecked:
    """Looks at nothing."""

    def check(self, cluster: Cluster, step) -> None:
        """Nothing."""


class Missing(unittest.TestCase):
    """Where one condition is missing, this project's peers, or orderly ones, go against what should hold."""

    def taken(self, cluster: Cluster, *steps) -> None:
        """Takes steps, each of which moves something."""
        for step in steps:
            self.assertEqual(cluster.apply(step), CHANGED, step)

    def contents(self, cluster: Cluster) -> list[dict]:
        """What the stores hold once no step moves anything."""
        self.assertTrue(come_to_end(Walk(Making(random.Random(1)), cluster)))
        return [{name: node.data for name, node in docs(cluster, device).store.nodes.items()}
                for device in cluster.peers]

    def test_all_is_well_where_none_is_missing(self):
        self.assertEqual(self.contents(cluster_of((TOP, NEW), (LOW, OLD), replica=Replica)), [{NAME: b"new"}] * 2)

    def test_without_a_chain_a_copy_is_made_before_the_top_is_heard_of(self):
        older = text("older", 3000)
        made = cluster_of((((1, 1), (2, 1), (3, 1)), NEW), (((2, 1),), OLD), (((3, 1),), older), replica=Replica)
        see(made, 2, 3)
        docs(made, 2).pulls[NAME] = Pull(record(((3, 1),), older), {0: b"older"})
        self.taken(made, Finish(2, DOCS, NAME))
        self.assertEqual(len(docs(made, 2).store.nodes), 2)

    def test_what_is_heard_of_alone_never_comes(self):
        made = cluster_of((LOW, OLD), (LOW, OLD), replica=Replica)
        docs(made, 2).pulls[NAME] = Pull(record(TOP))
        self.assertEqual(self.contents(made), [{NAME: b"old"}] * 2)

    def test_one_version_with_two_contents_stays_so(self):
        made = cluster_of((TOP, NEW), (TOP, OLD), replica=Replica)
        self.assertEqual(self.contents(made), [{NAME: b"new"}, {NAME: b"old"}])

    def test_a_local_change_stays(self):
        made = cluster_of((TOP, NEW), (LOW, OLD), kinds=(BOTH, RECEIVE), replica=Replica)
        put(made, 2, record(LOW, text("mine"), invalid=True), text("mine"))
        self.assertEqual(self.contents(made), [{NAME: b"new"}, {NAME: b"mine"}])

    def test_an_unclean_file_becomes_the_top(self):
        made = cluster_of((TOP, NEW), (TOP, NEW), replica=Replica)
        docs(made, 2).store.nodes[NAME] = text("other", 3000)
        self.taken(made, Scan(2, DOCS, NAME))
        self.assertEqual(docs(made, 2).own(NAME).version, (*TOP, (2, 1)))

    def test_of_other_bytes_that_look_clean_a_pull_never_ends(self):
        made = cluster_of((TOP, NEW), (LOW, OLD), replica=Replica)
        docs(made, 1).store.nodes[NAME] = replace(NEW, data=b"NEW")
        self.assertFalse(come_to_end(Walk(Making(random.Random(1)), made)))
        self.assertEqual(docs(made, 2).store.nodes, {NAME: OLD})

    def test_a_send_only_device_stays_behind(self):
        made = cluster_of((TOP, NEW), (LOW, OLD), kinds=(BOTH, SEND), replica=Replica)
        self.assertEqual(self.contents(made), [{NAME: b"new"}, {NAME: b"old"}])

    def test_a_record_that_counts_more_of_a_devices_changes_looks_like_a_conflict(self):
        made = cluster_of((((1, 1), (2, 1)), NEW), (LOW, OLD), replica=surely(OrderlyReplica))
        see(made, 2, 1)
        docs(made, 2).pulls[NAME] = Pull(docs(made, 1).own(NAME), {0: b"new"})
        self.taken(made, Finish(2, DOCS, NAME))
        self.assertEqual(len(docs(made, 2).store.nodes), 2)


class RulesThatAreNeeded(unittest.TestCase):
    """Rules of orderly peers without which what prevails doesn't go on prevailing."""

    def test_free_peers_make_copies_or_new_tops(self):
        found = 0
        for number in range(10):
            try:
                run_of_orderly_peers(PrevailingMaking(random.Random(number)), Counter(), replica=FreeReplica)
            except Contradiction:
                found += 1
        self.assertGreater(found, 2)

    def test_a_send_only_device_takes_no_other_content_over(self):
        made = empty_cluster(BOTH, SEND, replica=surely(TakesWhateverItsKind))
        put(made, 1, deletion(NAME, record(TOP), 1, TOP), None)
        hear(made, 2, 1, record(LOW, OLD))
        was = Prevailing(made)
        made.apply(StartPull(2, DOCS, NAME))
        docs(made, 2).pulls[NAME].received[0] = b"old"
        self.assertEqual(made.apply(Finish(2, DOCS, NAME)), CHANGED)
        with self.assertRaises(Contradiction):
            was.check(made, None)


class TakesWhateverItsKind(OrderlyReplica):
    """A peer that takes changes of others though it only sends."""

    def may_have_content_of(self, record: Record) -> bool:
        """Always."""
        return True


def surely(replica: type) -> partial:
    """What makes a folder at such a peer, whose pulls aren't dropped."""
    return partial(replica, random=SurelyTaken())


if __name__ == "__main__":
    unittest.main()
