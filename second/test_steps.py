#!/usr/bin/env python3
"""Worked examples of scans, local changes and folder kinds: what each step answers, and what it leaves.

    second/test_steps.py
"""

import copy
import unittest

from cases import (BOTH, DOCS, RECEIVE, SEND, UNCHANGED, StepTest, docs, empty_cluster, entry,
                   one_file_on_both, put, see, text)
from cluster.core import Cluster
from cluster.cut import certify, cut_of
from cluster.record import BLOCK_SIZES, Kind, Node, Record, block_size_of, blocks_of, deletion, is_clean, is_well_formed
from cluster.refusal import Why
from cluster.step import Edit, Finish, Override, Remove, Revert, Scan, StartPull
from cluster.version import GREATEST


class Scans(StepTest):
    """What a scan puts, by the folder's kind and what changed."""

    def test_a_clean_name_is_left_alone(self):
        cluster = one_file_on_both()
        before = copy.deepcopy(cluster)
        self.answers(cluster, Scan(1, DOCS, "hello"), UNCHANGED, Scan(1, DOCS, "nothing"), UNCHANGED)
        self.assertEqual(cluster, before)

    def test_other_bytes_of_the_same_size_and_time_are_seen_by_the_auditor_alone(self):
        cluster = one_file_on_both()
        docs(cluster, 2).store.nodes["hello"] = text("hallo")
        self.answers(cluster, Scan(2, DOCS, "hello"), UNCHANGED)
        self.assertEqual(self.verdict(cluster), "not settled: StoreDiffers docs hello on 2")

    def test_another_time_is_a_change(self):
        cluster = one_file_on_both()
        docs(cluster, 2).store.nodes["hello"] = text("hello", 1001)
        self.assertEqual(self.verdict(cluster), "not settled: StoreUnclean docs hello on 2")
        self.answers(cluster, Scan(2, DOCS, "hello"))
        self.assertEqual(docs(cluster, 2).own("hello"), entry("hello", text("hello", 1001), 2, ((1, 1), (2, 1)), 2))

    def test_a_node_that_is_gone_gives_a_deletion_with_the_old_kind_and_time(self):
        cluster = one_file_on_both()
        own = docs(cluster, 2).own("hello")
        self.answers(cluster, Remove(2, DOCS, "hello"), Scan(2, DOCS, "hello"))
        self.assertEqual(docs(cluster, 2).own("hello"),
                         Record("hello", Kind.File, own.modified_s, 2, ((1, 1), (2, 1)), 2, deleted=True))

    def test_a_file_that_was_made_again_is_a_change_even_at_the_time_of_its_deletion(self):
        cluster = one_file_on_both()
        self.answers(cluster, Remove(2, DOCS, "hello"), Scan(2, DOCS, "hello"), Edit(2, DOCS, "hello", text("")),
                     Scan(2, DOCS, "hello"), Scan(2, DOCS, "hello"), UNCHANGED)
        self.assertEqual(docs(cluster, 2).own("hello"), entry("hello", text(""), 2, ((1, 1), (2, 2)), 3))

    def test_the_time_of_a_directory_or_symlink_is_no_change(self):
        cluster = empty_cluster(BOTH)
        for node in (Node(Kind.Directory, 5), Node(Kind.Symlink, 5, target="x")):
            later = Node(node.kind, 9, target=node.target)
            self.answers(cluster, Edit(1, DOCS, "n", node), Scan(1, DOCS, "n"), Edit(1, DOCS, "n", later),
                         Scan(1, DOCS, "n"), UNCHANGED)
        self.answers(cluster, Edit(1, DOCS, "n", Node(Kind.Symlink, 5, target="y")), Scan(1, DOCS, "n"))

    def test_a_receive_only_folder_marks_the_change_and_keeps_the_version(self):
        cluster = one_file_on_both(BOTH, RECEIVE)
        self.answers(cluster, Edit(2, DOCS, "hello", text("abc")), Scan(2, DOCS, "hello"),
                     Edit(2, DOCS, "new", text("n")), Scan(2, DOCS, "new"))
        self.assertEqual(docs(cluster, 2).own("hello"), entry("hello", text("abc"), 2, ((1, 1),), 2, invalid=True))
        self.assertEqual(docs(cluster, 2).own("new"), entry("new", text("n"), 2, (), 3, invalid=True))
        self.answers(cluster, Scan(2, DOCS, "hello"), UNCHANGED)

    def test_a_deletion_in_a_receive_only_folder_is_marked_too(self):
        cluster = one_file_on_both(BOTH, RECEIVE)
        self.answers(cluster, Remove(2, DOCS, "hello"), Scan(2, DOCS, "hello"), Scan(2, DOCS, "hello"), UNCHANGED)
        self.assertEqual(docs(cluster, 2).own("hello"),
                         Record("hello", Kind.File, 1000, 2, ((1, 1),), 2, deleted=True, invalid=True))

    def test_a_full_counter_is_refused_and_refused_again(self):
        cluster = empty_cluster(BOTH)
        put(cluster, 1, entry("hello", text("hello"), 1, ((1, GREATEST),)), text("hallo", 5))
        self.refuses(cluster, Why.CounterFull, Scan(1, DOCS, "hello"))
        self.refuses(cluster, Why.CounterFull, Scan(1, DOCS, "hello"))

    def test_a_seventeenth_counter_is_refused(self):
        cluster = empty_cluster(BOTH)
        put(cluster, 1, entry("hello", text("hello"), 2, tuple((device, 1) for device in range(2, 18))), None)
        self.refuses(cluster, Why.TooManyCounters, Scan(1, DOCS, "hello"))

    def test_a_receive_only_folder_raises_no_counter_so_none_is_refused(self):
        cluster = empty_cluster(RECEIVE)
        put(cluster, 1, entry("hello", text("hello"), 1, ((1, GREATEST),)), text("hallo", 5))
        self.answers(cluster, Scan(1, DOCS, "hello"))

    def test_the_last_sequence_and_the_last_name(self):
        cluster = empty_cluster(BOTH)
        index = docs(cluster, 1).index
        self.answers(cluster, Edit(1, DOCS, "hello", text("hello")))
        index.max_sequence = GREATEST
        self.refuses(cluster, Why.SequenceFull, Scan(1, DOCS, "hello"))
        index.max_sequence = 1
        index.records = {str(place): entry(str(place), text("x"), 1, ((1, 1),)) for place in range(4096)}
        self.refuses(cluster, Why.IndexFull, Scan(1, DOCS, "hello"))
        self.answers(cluster, Scan(1, DOCS, "7"))
        index.max_sequence = GREATEST
        self.refuses(cluster, Why.SequenceFull, Scan(1, DOCS, "hello"))

    def test_a_failing_read_leaves_no_record(self):
        cluster = empty_cluster(BOTH)
        self.answers(cluster, Edit(1, DOCS, "hello", text("hello")))
        self.refuses(cluster, Why.StoreFault, Scan(1, DOCS, "hello"), failing=1)
        self.answers(cluster, Scan(1, DOCS, "hello"))


class LocalChanges(StepTest):
    """Edits and removals touch the store alone."""

    def test_a_failing_store_leaves_the_node(self):
        cluster = one_file_on_both()
        self.refuses(cluster, Why.StoreFault, Edit(1, DOCS, "hello", text("abc")), failing=1)
        self.refuses(cluster, Why.StoreFault, Remove(1, DOCS, "hello"), failing=1)
        self.refuses(cluster, Why.StoreFault, Remove(1, DOCS, "hello"), failing=2)
        self.refuses(cluster, Why.StoreFault, Remove(1, DOCS, "nothing"), failing=1)

    def test_there_must_be_something_to_remove(self):
        self.refuses(one_file_on_both(), Why.NothingToDo, Remove(1, DOCS, "nothing"))


class Kinds(StepTest):
    """Override and revert."""

    def sent_against(self) -> Cluster:
        """Device 1 only sends, and device 2 has a newer version of other content."""
        cluster = one_file_on_both(SEND, BOTH)
        put(cluster, 2, entry("hello", text("abc"), 2, ((1, 1), (2, 1))), text("abc"))
        see(cluster, 1, 2)
        see(cluster, 2, 1)
        return cluster

    def test_override_makes_the_own_record_the_newest(self):
        cluster = self.sent_against()
        self.assertEqual(self.verdict(cluster), "not settled: RecordDiffers docs hello on 1")
        self.refuses(cluster, Why.KindForbids, StartPull(1, DOCS, "hello"))
        self.answers(cluster, Override(1, DOCS, "hello"))
        self.assertEqual(docs(cluster, 1).own("hello"), entry("hello", text("hello"), 1, ((1, 2), (2, 1)), 2))
        self.meet(cluster, 1, 2)
        self.fetch(cluster, 2, 1, "hello")
        self.answers(cluster, Finish(2, DOCS, "hello"))
        self.assertEqual(self.verdict(cluster), "settled")
        self.assertEqual(docs(cluster, 2).store.nodes, {"hello": text("hello")})
        self.refuses(cluster, Why.NothingToDo, Override(1, DOCS, "hello"))

    def test_override_deletes_what_others_added(self):
        cluster = empty_cluster(SEND, BOTH)
        put(cluster, 2, entry("new", text("abc"), 2, ((2, 1),)), text("abc"))
        see(cluster, 1, 2)
        self.answers(cluster, Override(1, DOCS, "new"))
        self.assertEqual(docs(cluster, 1).own("new"),
                         Record("new", Kind.File, 1000, 1, ((1, 1), (2, 1)), 1, deleted=True))
        self.meet(cluster, 1, 2)
        self.answers(cluster, StartPull(2, DOCS, "new"), Finish(2, DOCS, "new"))
        self.assertEqual((docs(cluster, 2).store.nodes, self.verdict(cluster)), ({}, "settled"))

    def test_where_override_is_refused(self):
        cluster = self.sent_against()
        self.refuses(cluster, Why.KindForbids, Override(2, DOCS, "hello"))
        self.refuses(cluster, Why.NothingToDo, Override(1, DOCS, "nothing"))
        docs(cluster, 1).index.max_sequence = GREATEST
        self.refuses(cluster, Why.SequenceFull, Override(1, DOCS, "hello"))
        many = tuple((device, 1) for device in range(1, 17))
        put(cluster, 2, entry("hello", text("abc"), 2, ((1, GREATEST), *many[1:], (17, 1))), text("abc"))
        see(cluster, 1, 2)
        self.refuses(cluster, Why.CounterFull, Override(1, DOCS, "hello"))
        put(cluster, 2, entry("hello", text("abc"), 2, ((1, 2), *many[1:], (17, 1))), text("abc"))
        see(cluster, 1, 2)
        self.refuses(cluster, Why.TooManyCounters, Override(1, DOCS, "hello"))

    def test_override_needs_room_for_a_new_name(self):
        cluster = empty_cluster(SEND, BOTH)
        put(cluster, 2, entry("new", text("abc"), 2, ((2, 1),)), text("abc"))
        see(cluster, 1, 2)
        docs(cluster, 1).index.records = {str(place): entry(str(place), text("x"), 1, ((1, 1),), place + 1)
                                          for place in range(4096)}
        self.refuses(cluster, Why.IndexFull, Override(1, DOCS, "new"))

    def changed_where_received(self) -> Cluster:
        """Device 2 only receives, and has changed what it received."""
        cluster = one_file_on_both(BOTH, RECEIVE)
        see(cluster, 2, 1)
        self.answers(cluster, Edit(2, DOCS, "hello", text("abc")), Scan(2, DOCS, "hello"))
        return cluster

    def test_revert_takes_a_local_change_back_and_the_file_is_pulled_again(self):
        cluster = self.changed_where_received()
        self.assertEqual(self.verdict(cluster), "not settled: LocalOnly docs hello on 2")
        self.answers(cluster, Revert(2, DOCS, "hello"))
        self.assertEqual(docs(cluster, 2).own("hello"), Record("hello", Kind.File, 1000, 2, (), 3, deleted=True))
        self.assertEqual(docs(cluster, 2).store.nodes, {})
        self.meet(cluster, 1, 2)
        self.fetch(cluster, 2, 1, "hello")
        self.answers(cluster, Finish(2, DOCS, "hello"))
        self.assertEqual(docs(cluster, 2).own("hello").version, ((1, 1),))
        self.assertEqual(self.verdict(cluster), "settled")

    def test_revert_of_a_deletion_removes_nothing(self):
        cluster = one_file_on_both(BOTH, RECEIVE)
        self.answers(cluster, Remove(2, DOCS, "hello"), Scan(2, DOCS, "hello"), Revert(2, DOCS, "hello"))
        self.assertEqual(cluster.peers[2].faults.calls_of_step, 1)
        self.assertEqual(docs(cluster, 2).own("hello"), Record("hello", Kind.File, 1000, 2, (), 3, deleted=True))

    def test_where_revert_is_refused(self):
        cluster = self.changed_where_received()
        self.refuses(cluster, Why.KindForbids, Revert(1, DOCS, "hello"))
        self.refuses(cluster, Why.NothingToDo, Revert(2, DOCS, "nothing"))
        self.refuses(cluster, Why.StoreFault, Revert(2, DOCS, "hello"), failing=1)
        self.refuses(cluster, Why.StoreFault, Revert(2, DOCS, "hello"), failing=2)
        docs(cluster, 2).index.max_sequence = GREATEST
        self.refuses(cluster, Why.SequenceFull, Revert(2, DOCS, "hello"))
        docs(cluster, 2).index.max_sequence = 2
        self.answers(cluster, Edit(2, DOCS, "hello", text("more")))
        self.refuses(cluster, Why.Unscanned, Revert(2, DOCS, "hello"))
        self.answers(cluster, Edit(2, DOCS, "hello", text("abc")), Revert(2, DOCS, "hello"))
        self.refuses(cluster, Why.NothingToDo, Revert(2, DOCS, "hello"))


class Parts(unittest.TestCase):
    """Small parts that the steps stand on."""

    def test_the_records_that_scans_make_are_well_formed(self):
        for node in (text("hello"), text(""), Node(Kind.Directory, 5), Node(Kind.Symlink, 5, target="x")):
            record = entry("n", node, 1, ((1, 1),))
            self.assertTrue(is_well_formed(record))
            self.assertTrue(is_clean(node, record))
            self.assertTrue(is_well_formed(deletion("n", record, 1, ())))

    def test_the_plain_block_list(self):
        nothing = "e3b0c44298fc1c149afbf4c8996fb92427ae41e4649b934ca495991b7852b855"
        self.assertEqual([(block.offset, block.size, block.hash.hex()) for block in blocks_of(b"")], [(0, 0, nothing)])
        self.assertEqual([(block.offset, block.size) for block in blocks_of(bytes(131072))], [(0, 131072)])
        self.assertEqual([(block.offset, block.size) for block in blocks_of(bytes(131073))], [(0, 131072), (131072, 1)])

    def test_block_sizes_go_by_length(self):
        lengths = (0, 262143999, 262144000, 524287999, 524288000, 536870912)
        self.assertEqual([block_size_of(length) for length in lengths], [131072, 131072, 262144, 262144, 524288, 524288])
        greatest = [2000 * size - 1 for size in BLOCK_SIZES]
        self.assertEqual([block_size_of(length) for length in greatest], list(BLOCK_SIZES))
        self.assertEqual([block_size_of(length + 1) for length in greatest], [*BLOCK_SIZES[1:], 16777216])

    def test_the_winner_is_of_the_smallest_device_where_records_are_equal(self):
        row, = certify(cut_of(one_file_on_both()))
        self.assertEqual((row["folder"], row["device"], row["record"]["sequence"]), (b"docs", 1, 1))


if __name__ == "__main__":
    unittest.main()
