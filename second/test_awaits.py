#!/usr/bin/env python3
"""What one device has to do, and that the name prevails once it did, and comes to all.

    second/test_awaits.py
"""

import random
import unittest
from collections import Counter
from dataclasses import replace

from awaits import awaits_override, awaits_revert, awaits_scan
from cases import BOTH, CHANGED, DOCS, RECEIVE, SEND, docs, put, see, text
from cluster.choice import FolderKind
from cluster.core import Cluster
from cluster.refusal import Moved
from cluster.replica import Replica
from cluster.step import Override, Revert, Scan, Step
from converge_runs import Prevailing, come_to_end, link_all, open_anew
from prevailing import PrevailingMaking
from prevails import Name, Sharer, broken, names_of
from runs import Walk
from settled import TIMES, settled_cluster
from test_converge import LOW, NAME, NEW, OLD, TOP, cluster_of, record

KEY = (DOCS.encode(), NAME.encode())


def at_device(cluster: Cluster, key: tuple[bytes, bytes], device: int) -> tuple[Name, Sharer]:
    """What is known of the name, and what the device has."""
    at = names_of(cluster)[key]
    return at, next(one for one in at.devices if one.number == device)


class Examples(unittest.TestCase):
    """One step of one device, and then a run to the end."""

    def all_get(self, cluster: Cluster, step: Step, data: bytes | None) -> None:
        """After this step the name prevails, and in the end each device holds these bytes."""
        self.assertEqual(cluster.apply(step), CHANGED)
        self.assertEqual(list(broken(cluster)), [])
        link_all(cluster)
        self.assertTrue(come_to_end(Walk(PrevailingMaking(random.Random(1)), cluster), Prevailing(cluster)))
        held = [docs(cluster, device).store.nodes.get(NAME) for device in cluster.peers]
        self.assertEqual([node and node.data for node in held], [data] * len(held))

    def test_an_edit_at_the_top(self):
        made = cluster_of((TOP, NEW), (LOW, OLD), replica=Replica)
        docs(made, 1).store.nodes[NAME] = text("newest", 3000)
        self.assertTrue(awaits_scan(*at_device(made, KEY, 1)))
        self.all_get(made, Scan(1, DOCS, NAME), b"newest")

    def test_a_touch_of_the_same_bytes(self):
        made = cluster_of((TOP, NEW), (LOW, OLD), replica=Replica)
        docs(made, 1).store.nodes[NAME] = replace(NEW, modified_s=3000)
        self.assertTrue(awaits_scan(*at_device(made, KEY, 1)))
        self.all_get(made, Scan(1, DOCS, NAME), NEW.data)

    def test_an_edit_below_the_top_makes_concurrent_records(self):
        made = cluster_of((TOP, NEW), (LOW, OLD), replica=Replica)
        docs(made, 2).store.nodes[NAME] = text("mine", 3000)
        self.assertFalse(awaits_scan(*at_device(made, KEY, 2)))
        made.apply(Scan(2, DOCS, NAME))
        self.assertIn(("top", KEY), list(broken(made)))

    def hindered(self, cluster: Cluster, condition: str) -> None:
        """The name doesn't await the first device's scan, and after it this condition doesn't hold."""
        docs(cluster, 1).store.nodes[NAME] = text("newest", 3000)
        self.assertFalse(awaits_scan(*at_device(cluster, KEY, 1)))
        self.assertEqual(cluster.apply(Scan(1, DOCS, NAME)), CHANGED)
        self.assertIn((condition, KEY), list(broken(cluster)))

    def test_another_device_with_an_unclean_file(self):
        made = cluster_of((TOP, NEW), (LOW, OLD), replica=Replica)
        docs(made, 2).store.nodes[NAME] = text("other", 3000)
        self.hindered(made, "clean")

    def test_a_record_that_counts_more_of_anothers_changes(self):
        self.hindered(cluster_of(((*TOP, (2, 1)), NEW), (LOW, OLD), replica=Replica), "own counter")

    def test_another_device_that_only_sends(self):
        self.hindered(cluster_of((TOP, NEW), (LOW, OLD), kinds=(BOTH, SEND), replica=Replica), "takes changes")

    def test_an_override_of_what_was_seen(self):
        made = cluster_of((LOW, OLD), ((*LOW, (2, 1)), NEW), kinds=(SEND, BOTH), replica=Replica)
        see(made, 1, 2)
        self.assertTrue(awaits_override(*at_device(made, KEY, 1)))
        self.all_get(made, Override(1, DOCS, NAME), OLD.data)

    def test_an_override_of_what_was_not_seen(self):
        made = cluster_of((LOW, OLD), ((*LOW, (2, 1)), NEW), ((*LOW, (2, 1), (3, 1)), NEW), kinds=(SEND, BOTH, BOTH),
                          replica=Replica)
        see(made, 1, 2)
        self.assertFalse(awaits_override(*at_device(made, KEY, 1)))
        self.assertEqual(made.apply(Override(1, DOCS, NAME)), CHANGED)
        self.assertIn(("top", KEY), list(broken(made)))

    def test_a_revert(self):
        made = cluster_of((TOP, NEW), (LOW, OLD), kinds=(BOTH, RECEIVE), replica=Replica)
        put(made, 2, record(LOW, text("mine"), invalid=True), text("mine"))
        self.assertTrue(awaits_revert(*at_device(made, KEY, 2)))
        self.all_get(made, Revert(2, DOCS, NAME), NEW.data)

    def test_a_revert_where_a_change_was_counted(self):
        made = cluster_of((((1, 1), (2, 1)), NEW), (LOW, OLD), kinds=(BOTH, RECEIVE), replica=Replica)
        put(made, 2, record(LOW, text("mine"), invalid=True), text("mine"))
        self.assertFalse(awaits_revert(*at_device(made, KEY, 2)))
        self.assertEqual(made.apply(Revert(2, DOCS, NAME)), CHANGED)
        self.assertIn(("own counter", KEY), list(broken(made)))


class RandomScans(unittest.TestCase):
    """A user changes a file of a prevailing cluster, and its device scans it."""

    def scanned(self, number: int) -> tuple[str, Cluster, Walk]:
        """Whether the name awaited the scan, and what came of it."""
        making = PrevailingMaking(random.Random(number))
        cluster = settled_cluster(making)
        link_all(cluster)
        open_anew(cluster)
        walk = Walk(making, cluster)
        device, folder, name = walk.place()
        one = cluster.peers[device].replicas.get(folder)
        if one is None or one.kind == FolderKind.ReceiveOnly:
            return "not asked", cluster, walk
        body = making.body()
        one.store.nodes.pop(name, None)
        if body:
            seconds, nanoseconds = making.random.choice(TIMES)
            one.store.nodes[name] = replace(body, modified_s=seconds, modified_ns=nanoseconds)
        key = folder.encode(), name.encode()
        awaited = key in names_of(cluster) and awaits_scan(*at_device(cluster, key, device))
        answer = cluster.apply(Scan(device, folder, name))
        if answer != CHANGED:
            self.assertFalse(awaited and isinstance(answer, Moved), "what awaits a scan isn't clean")
            return "not changed", cluster, walk
        at, sharer = at_device(cluster, key, device)
        hindrances = [found for found in broken(cluster) if found[1] == key]
        if not awaited:
            return "not awaited, hindered" if hindrances else "not awaited, prevails", cluster, walk
        self.assertEqual(hindrances, [], number)
        self.assertTrue(at.is_at_top(sharer), number)
        return "awaited, prevails", cluster, walk

    def test_what_awaits_a_scan_prevails_after_it_and_comes_to_all(self):
        found, ended = Counter(), 0
        for number in range(120):
            told, cluster, walk = self.scanned(number)
            found[told] += 1
            if told == "awaited, prevails" and not list(broken(cluster)) and ended < 8:
                ended += 1
                self.assertTrue(come_to_end(walk, Prevailing(cluster)))
                self.assertTrue(all(at.is_at_top(one) for at in names_of(cluster).values() for one in at.devices))
        self.assertGreater(found["awaited, prevails"], 10)
        self.assertGreater(found["not awaited, hindered"], 10)
        self.assertGreater(ended, 4)


if __name__ == "__main__":
    unittest.main()
