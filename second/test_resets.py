#!/usr/bin/env python3
"""Worked examples of the index reset, and some random runs with resets.

    second/test_resets.py
"""

import random
import unittest
from collections import Counter

from calm import CalmMaking, broken_calm
from cases import DOCS, StepTest, docs, one_file_on_both
from cluster.core import Cluster
from cluster.cut import certify, cut_of, settled_contents
from cluster.index import View
from cluster.refusal import Why
from cluster.step import Finish, Reset, Scan
from runs import run_with_resets


class Resets(StepTest):
    """What a reset takes away, and what it leaves."""

    def in_step(self) -> Cluster:
        """Two devices with a file, which know each other's indexes."""
        cluster = one_file_on_both()
        self.meet(cluster, 1, 2)
        return cluster

    def winners(self, cluster: Cluster) -> list[int]:
        """The devices whose records win."""
        return [row["device"] for row in certify(cut_of(cluster))]

    def test_records_go_and_a_scan_brings_them_back(self):
        cluster = self.in_step()
        self.answers(cluster, Reset(1, 21))
        self.assertEqual(self.verdict(cluster), "not settled: RecordMissing docs hello on 1")
        self.assertEqual(self.winners(cluster), [2])
        self.answers(cluster, Scan(1, DOCS, "hello"))
        self.assertEqual((self.verdict(cluster), self.winners(cluster)), ("settled", [1]))
        self.assertEqual(docs(cluster, 1).own("hello").version, ((1, 1),))

    def test_so_at_the_other_device(self):
        cluster = self.in_step()
        self.answers(cluster, Reset(2, 22), Scan(2, DOCS, "hello"))
        self.assertEqual((self.verdict(cluster), self.winners(cluster)), ("settled", [1]))
        self.assertEqual(docs(cluster, 2).own("hello").version, ((2, 1),))

    def test_an_id_that_is_not_above_the_present_one_is_refused(self):
        for index_id in (10, 11):
            self.refuses(self.in_step(), Why.IndexIdOld, Reset(1, index_id))
        self.refuses(self.in_step(), Why.NotShared, Reset(3, 99))

    def test_the_store_stays_and_all_else_that_the_device_knew_goes(self):
        cluster = self.in_step()
        self.answers(cluster, Reset(1, 12))
        one = docs(cluster, 1)
        self.assertEqual((one.index.point, one.index.records), ((12, 0), {}))
        self.assertEqual((one.views, one.pulls, cluster.peers[1].sessions), ({2: View()}, {}, {}))
        self.assertEqual(list(one.store.nodes), ["hello"])
        self.assertFalse(cluster.links[1, 2].is_up)

    def test_others_forget_the_old_index_and_get_the_new_one(self):
        cluster = self.in_step()
        self.answers(cluster, Reset(1, 12), Scan(1, DOCS, "hello"))
        self.assertEqual(docs(cluster, 2).views[1].point, (11, 1))
        self.meet(cluster, 1, 2)
        self.assertEqual(docs(cluster, 2).views[1].point, (12, 1))
        self.assertEqual(self.verdict(cluster), "settled")

    def test_a_settled_cluster_is_calm_whichever_devices_were_reset(self):
        cluster = self.in_step()
        for reset in (set(), {1}, {1, 2}):
            self.assertIsNone(broken_calm(cluster, settled_contents(cluster), reset))

    def test_only_a_device_that_was_reset_may_lack_a_record(self):
        cluster = self.in_step()
        contents = settled_contents(cluster)
        self.answers(cluster, Reset(2, 13))
        self.assertIsNone(broken_calm(cluster, contents, {2}))
        self.assertEqual(broken_calm(cluster, contents, {1}),
                         ("an own record is there", DOCS.encode(), 2, b"hello"))

    def test_what_is_not_scanned_yet_is_not_overwritten(self):
        cluster = self.in_step()
        self.answers(cluster, Reset(2, 13))
        self.meet(cluster, 1, 2)
        self.fetch(cluster, 2, 1, "hello")
        self.refuses(cluster, Why.Unscanned, Finish(2, DOCS, "hello"))


class Runs(unittest.TestCase):
    """Some of the runs that runs.py makes by the thousand."""

    def test_resets_keep_the_stores_of_settled_and_calm_clusters(self):
        answers = Counter()
        for number in range(10):
            run_with_resets(CalmMaking(random.Random(number)), answers, from_settled=number % 2 == 0)
        self.assertLess({("Reset", "Changed"), ("Scan", "Changed"), ("Finish", "Changed")}, set(answers))


if __name__ == "__main__":
    unittest.main()
