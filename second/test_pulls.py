#!/usr/bin/env python3
"""Worked examples of choices, conflicts and pulls: what each step answers, and what it leaves.

    second/test_pulls.py
"""

import copy
import unittest

from cases import (BOTH, DOCS, DROPPED, RECEIVE, SEND, StepTest, docs, empty_cluster, entry,
                   one_file_on_both, put, see, text)
from cluster.choice import FolderKind, choose, is_needed
from cluster.core import Cluster
from cluster.record import Kind, Node, conflict_name, deletion
from cluster.refusal import Why
from cluster.step import Ask, Edit, Finish, Lose, Remove, Scan, StartPull
from cluster.version import GREATEST

COPY = "notes.sync-conflict-2000-0000000000000002.txt"


class Choices(StepTest):
    """Which record a device takes for the present one, and whether it needs it."""

    def test_dominated_versions_go_before_times_are_compared(self):
        candidates = [(2, entry("n", text("a", 5), 7, ((7, 3),))), (3, entry("n", text("b", 9), 7, ((7, 2),))),
                      (4, entry("n", text("c", 5), 2, ((2, 1),)))]
        self.assertEqual(choose(9, candidates), candidates[2][1])

    def test_what_is_needed(self):
        def file(content, version, invalid=False):
            return entry("n", text(content), 1, version, invalid=invalid)
        cases = [(kind, None, deletion("n", file("a", ()), 1, ((1, 1),)), False) for kind in FolderKind]
        cases += [(kind, file("a", ((1, 1),)), file("a", ((1, 1),)), False) for kind in FolderKind]
        cases += [(SEND, None, file("a", ((1, 1),)), False),
                  (BOTH, None, file("a", ((1, 1),)), True),
                  (SEND, file("a", ((1, 1),)), file("a", ((1, 2),)), True),
                  (SEND, file("a", ((1, 1),)), file("b", ((1, 2),)), False),
                  (RECEIVE, file("a", ((1, 1),), invalid=True), file("b", ((1, 2),)), False),
                  (RECEIVE, file("a", ((1, 1),), invalid=True), file("a", ((2, 1),)), True)]
        for kind, own, chosen, expected in cases:
            self.assertEqual(is_needed(kind, own, chosen), expected, (kind, own, chosen))


class Conflicts(StepTest):
    """Two devices change the same name apart from each other."""

    def changed_apart(self) -> Cluster:
        """Both devices change a file that they had; the first one's change wins, and device 2 has received it."""
        cluster = empty_cluster(BOTH, BOTH)
        for device, node, version in ((1, text("hello", 2000), ((1, 2),)), (2, text("abc", 2000), ((1, 1), (2, 1)))):
            put(cluster, device, entry("notes.txt", node, device, version), node)
        self.meet(cluster, 1, 2)
        self.fetch(cluster, 2, 1, "notes.txt")
        return cluster

    def test_a_file_wins_against_its_deletion_and_no_copy_is_kept(self):
        cluster = empty_cluster(BOTH, BOTH)
        self.answers(cluster, Edit(1, DOCS, "f", text("one")), Scan(1, DOCS, "f"))
        self.meet(cluster, 1, 2)
        self.fetch(cluster, 2, 1, "f")
        self.answers(cluster, Finish(2, DOCS, "f"), Lose(1, 2), Edit(1, DOCS, "f", text("two", 900)),
                     Scan(1, DOCS, "f"), Remove(2, DOCS, "f"), Scan(2, DOCS, "f"))
        self.assertEqual(docs(cluster, 2).own("f").version, ((1, 1), (2, 1)))
        self.meet(cluster, 1, 2)
        file = docs(cluster, 1).own("f")
        self.assertEqual(file.version, ((1, 2),))
        self.assertEqual((docs(cluster, 1).chosen("f"), docs(cluster, 2).chosen("f")), (file, file))
        self.refuses(cluster, Why.NotNeeded, StartPull(1, DOCS, "f"))
        self.fetch(cluster, 2, 1, "f")
        self.answers(cluster, Finish(2, DOCS, "f"))
        self.assertEqual(docs(cluster, 2).own("f").version, ((1, 2), (2, 1)))
        self.assertEqual(docs(cluster, 2).store.nodes, {"f": text("two", 900)})
        self.tell(cluster, 2, 1)
        self.answers(cluster, StartPull(1, DOCS, "f"), Ask(1, 2, DOCS, "f"), Why.NothingToDo, Finish(1, DOCS, "f"))
        self.assertEqual(docs(cluster, 1).own("f").version, ((1, 2), (2, 1)))
        self.tell(cluster, 1, 2)
        self.assertEqual(self.verdict(cluster), "settled")

    def test_the_file_that_loses_is_kept_under_the_conflict_name(self):
        cluster = self.changed_apart()
        self.answers(cluster, Finish(2, DOCS, "notes.txt"))
        self.assertEqual(docs(cluster, 2).store.nodes, {"notes.txt": text("hello", 2000), COPY: text("abc", 2000)})
        self.assertEqual(docs(cluster, 2).own("notes.txt").version, ((1, 2), (2, 1)))
        self.assertIsNone(docs(cluster, 2).own(COPY))
        self.answers(cluster, Scan(2, DOCS, COPY))
        self.assertEqual(docs(cluster, 2).own(COPY).version, ((2, 1),))

    def test_where_a_conflict_name_has_its_mark(self):
        for name, expected in {"notes.txt": COPY, "README": "README.sync-conflict-2000-0000000000000002",
                               ".profile": ".profile.sync-conflict-2000-0000000000000002",
                               "a.d/b": "a.d/b.sync-conflict-2000-0000000000000002",
                               "a/.b.c": "a/.b.sync-conflict-2000-0000000000000002.c",
                               "n.": "n.sync-conflict-2000-0000000000000002."}.items():
            self.assertEqual(conflict_name(entry(name, text("abc", 2000), 2, ())), expected)
        self.assertEqual(conflict_name(entry("n", text("", -1), 2**64 - 1, ())), "n.sync-conflict--1-ffffffffffffffff")

    def test_each_failing_store_call_leaves_all_but_the_copy(self):
        for place in (1, 2, 3):
            cluster = self.changed_apart()
            self.refuses(cluster, Why.StoreFault, Finish(2, DOCS, "notes.txt"), failing=place)
            self.answers(cluster, Finish(2, DOCS, "notes.txt"))
        cluster = self.changed_apart()
        before = copy.deepcopy(cluster)
        self.assertEqual(cluster.apply(Finish(2, DOCS, "notes.txt"), failing=4), Why.StoreFault)
        self.assertEqual(docs(cluster, 2).store.nodes.pop(COPY), text("abc", 2000))
        self.assertEqual(cluster, before)

    def test_a_copy_that_was_kept_is_used_again(self):
        cluster = self.changed_apart()
        self.assertEqual(cluster.apply(Finish(2, DOCS, "notes.txt"), failing=4), Why.StoreFault)
        self.assertEqual(docs(cluster, 2).store.nodes, {"notes.txt": text("abc", 2000), COPY: text("abc", 2000)})
        self.answers(cluster, Finish(2, DOCS, "notes.txt"))
        self.assertEqual(cluster.peers[2].faults.calls_of_step, 3)
        self.assertEqual(docs(cluster, 2).store.nodes, {"notes.txt": text("hello", 2000), COPY: text("abc", 2000)})

    def test_another_node_under_the_conflict_name_is_left_alone(self):
        for node in (text("xyz", 2000), text("abc", 2001), Node(Kind.Directory, 2000)):
            cluster = self.changed_apart()
            docs(cluster, 2).store.nodes[COPY] = node
            self.refuses(cluster, Why.CopyExists, Finish(2, DOCS, "notes.txt"))

    def test_a_conflict_name_may_be_too_long(self):
        name = "n" * 1000
        cluster = empty_cluster(BOTH, BOTH)
        for device, node, version in ((1, text("hello"), ((1, 2),)), (2, text("abc"), ((1, 1), (2, 1)))):
            put(cluster, device, entry(name, node, device, version), node)
        see(cluster, 2, 1)
        self.answers(cluster, StartPull(2, DOCS, name))
        docs(cluster, 2).pulls[name].received[0] = b"hello"
        self.refuses(cluster, Why.NameBad, Finish(2, DOCS, name))

    def test_a_merge_may_have_too_many_counters(self):
        cluster = empty_cluster(BOTH, BOTH)
        put(cluster, 2, entry("n", text("abc"), 2, tuple((device, 1) for device in range(1, 17))), text("abc"))
        put(cluster, 1, entry("n", text("hello"), 1, ((17, 1),)), text("hello"))
        see(cluster, 2, 1)
        self.answers(cluster, StartPull(2, DOCS, "n"))
        docs(cluster, 2).pulls["n"].received[0] = b"hello"
        self.refuses(cluster, Why.TooManyCounters, Finish(2, DOCS, "n"))

    def test_a_change_that_was_not_scanned_is_never_overwritten(self):
        cluster = self.changed_apart()
        self.answers(cluster, Edit(2, DOCS, "notes.txt", text("more", 2001)))
        self.refuses(cluster, Why.Unscanned, Finish(2, DOCS, "notes.txt"))
        self.answers(cluster, Remove(2, DOCS, "notes.txt"))
        self.refuses(cluster, Why.Unscanned, Finish(2, DOCS, "notes.txt"))


class Pulls(StepTest):
    """Pulls that can't begin, or end without taking their target over."""

    def test_a_pull_is_dropped_where_a_newer_local_version_stands(self):
        cluster = empty_cluster(BOTH, BOTH)
        put(cluster, 2, entry("hello", text("old"), 1, ((1, 1),)), text("old"))
        see(cluster, 1, 2)
        self.answers(cluster, StartPull(1, DOCS, "hello"), Edit(1, DOCS, "hello", text("one")), Scan(1, DOCS, "hello"),
                     Edit(1, DOCS, "hello", text("two", 1001)), Scan(1, DOCS, "hello"))
        self.assertEqual(docs(cluster, 1).own("hello").version, ((1, 2),))
        self.answers(cluster, Finish(1, DOCS, "hello"), DROPPED, Finish(1, DOCS, "hello"), Why.NotNeeded)
        self.assertEqual(docs(cluster, 1).store.nodes, {"hello": text("two", 1001)})

    def test_a_pull_of_another_record_than_is_wanted_now_is_dropped(self):
        cluster = one_file_on_both()
        put(cluster, 2, entry("hello", text("abc"), 2, ((1, 1), (2, 1))), text("abc"))
        see(cluster, 1, 2)
        self.answers(cluster, StartPull(1, DOCS, "hello"))
        put(cluster, 2, entry("hello", text("more"), 2, ((1, 1), (2, 2))), text("more"))
        see(cluster, 1, 2)
        self.answers(cluster, Finish(1, DOCS, "hello"), DROPPED)

    def test_the_same_record_under_another_sequence_is_the_same_target(self):
        cluster = one_file_on_both()
        put(cluster, 2, entry("hello", text("hello", 5), 2, ((1, 1), (2, 1))), text("hello", 5))
        see(cluster, 1, 2)
        self.answers(cluster, StartPull(1, DOCS, "hello"))
        put(cluster, 2, docs(cluster, 2).own("hello"), None)
        see(cluster, 1, 2)
        self.answers(cluster, Finish(1, DOCS, "hello"))
        self.assertEqual(docs(cluster, 1).store.nodes, {"hello": text("hello", 5)})

    def test_a_record_of_the_same_content_takes_no_block_and_sets_the_time_alone(self):
        cluster = one_file_on_both()
        put(cluster, 2, entry("hello", text("hello", 5), 2, ((1, 1), (2, 1))), text("hello", 5))
        see(cluster, 1, 2)
        self.answers(cluster, StartPull(1, DOCS, "hello"))
        self.refuses(cluster, Why.StoreFault, Finish(1, DOCS, "hello"), failing=2)
        self.answers(cluster, Finish(1, DOCS, "hello"))
        self.assertEqual(docs(cluster, 1).own("hello"), entry("hello", text("hello", 5), 2, ((1, 1), (2, 1)), 2))

    def test_an_old_version_on_its_way_is_not_needed(self):
        cluster = one_file_on_both()
        for device in (1, 2):
            put(cluster, device, entry("hello", text("hello"), 1, ((1, 2),)), text("hello"))
        docs(cluster, 2).views[1].amend((entry("hello", text("abc", 900), 1, ((1, 1),), 3),))
        self.assertEqual(self.verdict(cluster), "settled")
        self.refuses(cluster, Why.NotNeeded, StartPull(2, DOCS, "hello"))
        self.refuses(cluster, Why.NotNeeded, StartPull(2, DOCS, "nothing"))

    def test_what_the_folders_kind_forbids(self):
        cluster = empty_cluster(SEND, BOTH)
        put(cluster, 2, entry("new", text("abc"), 2, ((2, 1),)), text("abc"))
        see(cluster, 1, 2)
        self.refuses(cluster, Why.KindForbids, StartPull(1, DOCS, "new"))
        cluster = one_file_on_both(BOTH, RECEIVE)
        self.answers(cluster, Edit(2, DOCS, "hello", text("abc")), Scan(2, DOCS, "hello"))
        see(cluster, 2, 1)
        self.refuses(cluster, Why.NotNeeded, StartPull(2, DOCS, "hello"))
        self.answers(cluster, Edit(1, DOCS, "hello", text("more")), Scan(1, DOCS, "hello"))
        see(cluster, 2, 1)
        self.refuses(cluster, Why.KindForbids, StartPull(2, DOCS, "hello"))
        self.answers(cluster, Edit(1, DOCS, "hello", text("abc")), Scan(1, DOCS, "hello"))
        see(cluster, 2, 1)
        self.answers(cluster, StartPull(2, DOCS, "hello"), Finish(2, DOCS, "hello"))
        self.assertEqual(self.verdict(cluster), "settled")

    def test_a_folder_has_sixty_four_pulls(self):
        cluster = empty_cluster(BOTH, BOTH)
        for place in range(65):
            put(cluster, 2, entry(f"n{place}", text("abc"), 2, ((2, 1),)), text("abc"))
        see(cluster, 1, 2)
        self.answers(cluster, *(StartPull(1, DOCS, f"n{place}") for place in range(64)))
        self.refuses(cluster, Why.PullsFull, StartPull(1, DOCS, "n64"))
        docs(cluster, 1).pulls["n7"].received[0] = b"abc"
        self.answers(cluster, StartPull(1, DOCS, "n7"))
        self.assertEqual(docs(cluster, 1).pulls["n7"].received, {})

    def test_an_index_without_room_takes_no_pull_over(self):
        cluster = empty_cluster(BOTH, BOTH)
        put(cluster, 2, entry("n", Node(Kind.Directory, 5), 2, ((2, 1),)), Node(Kind.Directory, 5))
        see(cluster, 1, 2)
        self.answers(cluster, StartPull(1, DOCS, "n"))
        docs(cluster, 1).index.max_sequence = GREATEST
        self.refuses(cluster, Why.SequenceFull, Finish(1, DOCS, "n"))
        docs(cluster, 1).index.max_sequence = 9
        docs(cluster, 1).index.records = {str(place): entry(str(place), text("x"), 1, ((1, 1),), place + 1)
                                          for place in range(4096)}
        self.refuses(cluster, Why.IndexFull, Finish(1, DOCS, "n"))


if __name__ == "__main__":
    unittest.main()
