#!/usr/bin/env python3
"""Worked examples of what devices say to each other: a file that comes from one to another, step by step, lost
connections, and messages that should not come.

    second/test_links.py
"""

import copy
import hashlib
import unittest
from dataclasses import replace

from cases import (BOTH, CHANGED, DOCS, LOST, RECEIVE, StepTest, docs, empty_cluster, entry, one_file_on_both, see,
                   text)
from cluster.core import Cluster, Config, Share
from cluster.index import Index as OwnIndex, View
from cluster.link import Announced, ClusterConfig, Index, IndexUpdate, Request, Response
from cluster.record import BLOCK_SIZE, Kind, Node
from cluster.refusal import Why
from cluster.replica import Pull
from cluster.step import (Announce, Ask, Begin, Connect, Deliver, Edit, Finish, Lose, Override, Remove, Restart, Revert,
                          Scan, StartPull)
from cluster.version import GREATEST


class OneFileIsPulled(StepTest):
    """A file of device 1 comes to device 2, step by step."""

    def test_each_step_answers_and_does_what_it_should(self):
        cluster = empty_cluster(BOTH, BOTH)
        first, second, link = docs(cluster, 1), docs(cluster, 2), cluster.links[1, 2]
        self.answers(cluster, Edit(1, DOCS, "hello", text("hello")))
        self.assertEqual((first.store.nodes, first.index.records), ({"hello": text("hello")}, {}))
        self.answers(cluster, Scan(1, DOCS, "hello"))
        self.assertEqual(first.index.records["hello"], entry("hello", text("hello"), 1, ((1, 1),), sequence=1))
        self.answers(cluster, Connect(1, 2))
        self.assertEqual((link.is_up, link.epoch), (True, 1))
        self.answers(cluster, Begin(1, 2))
        self.assertEqual(link.to_b, [ClusterConfig((Announced(DOCS, (11, 1), (0, 0)),))])
        self.answers(cluster, Begin(2, 1))
        self.assertEqual(link.to_a, [ClusterConfig((Announced(DOCS, (12, 0), (0, 0)),))])
        self.answers(cluster, Deliver(2, 1))
        self.assertEqual(second.views[1].point, (11, 0))
        self.answers(cluster, Deliver(1, 2))
        self.assertEqual(cluster.peers[1].sessions[2].cursors, {DOCS: "full"})
        self.answers(cluster, Announce(1, 2, DOCS))
        self.assertEqual(link.to_b, [Index(DOCS, (first.own("hello"),))])
        self.assertEqual(cluster.peers[1].sessions[2].cursors, {DOCS: 1})
        self.answers(cluster, Deliver(2, 1))
        self.assertEqual(second.views[1], View(11, 1, {"hello": first.own("hello")}))
        self.answers(cluster, StartPull(2, DOCS, "hello"))
        self.assertEqual(second.pulls, {"hello": Pull(first.own("hello"), {})})
        self.answers(cluster, Ask(2, 1, DOCS, "hello"))
        self.assertEqual(link.to_a, [Request(1, DOCS, "hello", 0, 5, hashlib.sha256(b"hello").digest())])
        self.answers(cluster, Deliver(1, 2))
        self.assertEqual((link.to_a, link.to_b), ([], [Response(1, 0, b"hello")]))
        self.answers(cluster, Deliver(2, 1))
        self.assertEqual(second.pulls["hello"].received, {0: b"hello"})
        self.answers(cluster, Finish(2, DOCS, "hello"))
        self.assertEqual(second.own("hello"), entry("hello", text("hello"), 1, ((1, 1),), sequence=1))
        self.assertEqual(second.store.nodes, {"hello": text("hello")})
        self.refuses(cluster, Why.NotNeeded, Finish(2, DOCS, "hello"))
        self.assertEqual(self.verdict(cluster), "settled")

    def test_an_empty_file_has_one_empty_block_to_ask_for(self):
        cluster = empty_cluster(BOTH, BOTH)
        self.answers(cluster, Edit(1, DOCS, "empty", text("")), Scan(1, DOCS, "empty"))
        self.meet(cluster, 1, 2)
        self.answers(cluster, StartPull(2, DOCS, "empty"))
        self.refuses(cluster, Why.BlocksMissing, Finish(2, DOCS, "empty"))
        self.answers(cluster, Ask(2, 1, DOCS, "empty"), Deliver(1, 2), Deliver(2, 1), Finish(2, DOCS, "empty"))
        self.assertEqual(docs(cluster, 2).store.nodes, {"empty": text("")})

    def test_directories_symlinks_and_deletions_need_no_blocks(self):
        cluster = empty_cluster(BOTH, BOTH)
        nodes = {"d": Node(Kind.Directory, 5), "s": Node(Kind.Symlink, 6, target="d"), "x": text("x")}
        for name, node in nodes.items():
            self.answers(cluster, Edit(1, DOCS, name, node), Scan(1, DOCS, name))
        self.meet(cluster, 1, 2)
        for name in nodes:
            self.fetch(cluster, 2, 1, name)
            self.answers(cluster, Finish(2, DOCS, name))
        self.assertEqual(docs(cluster, 2).store.nodes, nodes)
        for name in nodes:
            self.answers(cluster, Remove(1, DOCS, name), Scan(1, DOCS, name))
        self.tell(cluster, 1, 2)
        for name in nodes:
            self.answers(cluster, StartPull(2, DOCS, name), Ask(2, 1, DOCS, name), Why.NothingToDo,
                         Finish(2, DOCS, name))
        self.assertEqual(docs(cluster, 2).store.nodes, {})
        self.assertEqual(self.verdict(cluster), "settled")

    def test_a_block_is_asked_for_once_and_again_after_an_answer_without_bytes(self):
        cluster = empty_cluster(BOTH, BOTH)
        self.answers(cluster, Edit(1, DOCS, "hello", text("hello")), Scan(1, DOCS, "hello"))
        self.meet(cluster, 1, 2)
        self.answers(cluster, StartPull(2, DOCS, "hello"), Ask(2, 1, DOCS, "hello"), Ask(2, 1, DOCS, "hello"),
                     Why.NothingToDo, Edit(1, DOCS, "hello", text("hallo")), Deliver(1, 2))
        self.assertEqual(cluster.links[1, 2].to_b, [Response(1, 3)])
        self.answers(cluster, Deliver(2, 1), Ask(2, 1, DOCS, "hello"), Edit(1, DOCS, "hello", text("hi")),
                     Deliver(1, 2))
        self.assertEqual(cluster.links[1, 2].to_b, [Response(2, 2)])
        self.answers(cluster, Deliver(2, 1), Ask(2, 1, DOCS, "hello"))
        self.assertEqual(cluster.apply(Deliver(1, 2), failing=1), CHANGED)
        self.assertEqual(cluster.links[1, 2].to_b, [Response(3, 1)])
        self.answers(cluster, Deliver(2, 1), Edit(1, DOCS, "hello", text("hello")), Ask(2, 1, DOCS, "hello"),
                     Deliver(1, 2))
        self.assertEqual(cluster.links[1, 2].to_b, [Response(4, 0, b"hello")])

    def test_a_large_file_comes_in_blocks(self):
        cluster = empty_cluster(BOTH, BOTH)
        large = Node(Kind.File, 7, data=bytes(BLOCK_SIZE) + b"\1")
        self.answers(cluster, Edit(1, DOCS, "large", large), Scan(1, DOCS, "large"))
        self.assertEqual([(block.offset, block.size) for block in docs(cluster, 1).own("large").blocks],
                         [(0, BLOCK_SIZE), (BLOCK_SIZE, 1)])
        self.meet(cluster, 1, 2)
        self.answers(cluster, StartPull(2, DOCS, "large"), Ask(2, 1, DOCS, "large"), Ask(2, 1, DOCS, "large"),
                     Ask(2, 1, DOCS, "large"), Why.NothingToDo, Deliver(1, 2), Deliver(2, 1))
        self.refuses(cluster, Why.BlocksMissing, Finish(2, DOCS, "large"))
        self.answers(cluster, Deliver(1, 2), Deliver(2, 1), Finish(2, DOCS, "large"))
        self.assertEqual(docs(cluster, 2).store.nodes, {"large": large})


class Links(StepTest):
    """Connections, sessions, and what is sent over them."""

    def test_a_connection_that_was_lost_goes_on_with_what_is_new(self):
        cluster = empty_cluster(BOTH, BOTH)
        for place in range(1500):
            self.answers(cluster, Edit(1, DOCS, f"n{place}", text("x")), Scan(1, DOCS, f"n{place}"))
        self.answers(cluster, Connect(1, 2), Begin(1, 2), Begin(2, 1), Deliver(2, 1), Deliver(1, 2),
                     Announce(1, 2, DOCS), Announce(1, 2, DOCS), Announce(1, 2, DOCS), Why.NothingToDo, Deliver(2, 1))
        self.assertEqual(docs(cluster, 2).views[1].point, (11, 1000))
        self.answers(cluster, Lose(1, 2), Connect(1, 2), Begin(1, 2), Begin(2, 1), Deliver(2, 1), Deliver(1, 2))
        self.assertEqual(docs(cluster, 2).views[1].point, (11, 1000))
        self.answers(cluster, Announce(1, 2, DOCS), Announce(1, 2, DOCS), Why.NothingToDo)
        message, = cluster.links[1, 2].to_b
        self.assertIsInstance(message, IndexUpdate)
        self.assertEqual([record.sequence for record in message.records], list(range(1001, 1501)))
        self.answers(cluster, Deliver(2, 1))
        self.assertEqual(docs(cluster, 2).views[1].records, docs(cluster, 1).index.records)

    def test_from_where_an_index_is_sent(self):
        index = OwnIndex(11)
        for name in "aba":
            index.put(entry(name, text("x"), 1, ((1, 1),)))
        points = {(11, 3): 3, (11, 1): 1, (11, 0): "full", (11, 4): "full", (12, 3): "full", (0, 0): "full",
                  (12, 1000): "full"}
        for point, expected in points.items():
            self.assertEqual(index.plan(point), expected, point)
        self.assertEqual([(record.name, record.sequence) for record in index.after(0)], [("b", 2), ("a", 3)])
        self.assertEqual([record.name for record in index.after(2)], ["a"])

    def test_an_empty_index_is_sent_once(self):
        cluster = empty_cluster(BOTH, BOTH)
        self.answers(cluster, Connect(1, 2), Begin(1, 2), Begin(2, 1), Deliver(1, 2), Announce(1, 2, DOCS),
                     Announce(1, 2, DOCS), Why.NothingToDo, Edit(1, DOCS, "n", text("x")), Scan(1, DOCS, "n"),
                     Announce(1, 2, DOCS), Deliver(2, 1), Deliver(2, 1), Deliver(2, 1))
        self.assertEqual(docs(cluster, 2).views[1].point, (11, 1))

    def test_a_full_index_replaces_all_that_was_known(self):
        cluster = one_file_on_both()
        self.meet(cluster, 1, 2)
        docs(cluster, 2).views[1].records["old"] = entry("old", text("old"), 1, ((1, 1),), sequence=1)
        cluster.links[1, 2].to_b.append(Index(DOCS, (docs(cluster, 1).own("hello"),)))
        self.answers(cluster, Deliver(2, 1))
        self.assertEqual(docs(cluster, 2).views[1], View(11, 1, docs(cluster, 1).index.records))
        cluster.links[1, 2].to_b.append(Index(DOCS, ()))
        self.answers(cluster, Deliver(2, 1))
        self.assertEqual(docs(cluster, 2).views[1], View(11, 0, {}))

    def test_an_index_of_another_id_is_forgotten(self):
        cluster = one_file_on_both()
        see(cluster, 2, 1)
        docs(cluster, 2).views[1].id = 10
        self.answers(cluster, Connect(1, 2), Begin(1, 2), Begin(2, 1), Deliver(2, 1))
        self.assertEqual(docs(cluster, 2).views[1], View(11, 0, {}))

    def test_a_local_only_record_is_announced_as_invalid(self):
        cluster = empty_cluster(RECEIVE, BOTH)
        self.answers(cluster, Edit(1, DOCS, "n", text("x")), Scan(1, DOCS, "n"))
        self.meet(cluster, 1, 2)
        self.assertTrue(docs(cluster, 2).views[1].records["n"].invalid)
        self.refuses(cluster, Why.NotNeeded, StartPull(2, DOCS, "n"))

    def test_the_order_in_which_a_link_is_used(self):
        cluster = one_file_on_both()
        for step in (Begin(1, 2), Deliver(1, 2), Announce(1, 2, DOCS), Ask(1, 2, DOCS, "hello"), Lose(1, 2)):
            self.refuses(cluster, Why.LinkDown, step)
        self.answers(cluster, Connect(1, 2))
        self.refuses(cluster, Why.NothingToDo, Connect(1, 2))
        for step in (Deliver(1, 2), Announce(1, 2, DOCS), Ask(1, 2, DOCS, "hello")):
            self.refuses(cluster, Why.NotBegun, step)
        self.answers(cluster, Begin(1, 2))
        self.refuses(cluster, Why.NothingToDo, Begin(1, 2))
        self.refuses(cluster, Why.NothingToDo, Deliver(1, 2))
        self.refuses(cluster, Why.NotBegun, Announce(1, 2, DOCS))
        self.refuses(cluster, Why.NothingToDo, Ask(1, 2, DOCS, "hello"))
        self.answers(cluster, Lose(1, 2), Connect(1, 2))
        self.refuses(cluster, Why.NotBegun, Deliver(1, 2))
        self.answers(cluster, Begin(1, 2))
        self.assertEqual(cluster.peers[1].sessions[2].epoch, 2)

    def test_the_last_epoch(self):
        cluster = one_file_on_both()
        cluster.links[1, 2].epoch = GREATEST
        self.refuses(cluster, Why.EpochFull, Connect(1, 2))

    def test_a_link_takes_so_many_messages(self):
        cluster = empty_cluster(BOTH, BOTH)
        self.answers(cluster, Edit(1, DOCS, "hello", text("hello")), Scan(1, DOCS, "hello"))
        self.meet(cluster, 1, 2)
        self.answers(cluster, StartPull(2, DOCS, "hello"), Ask(2, 1, DOCS, "hello"),
                     Edit(1, DOCS, "hello", text("more")), Scan(1, DOCS, "hello"))
        link = cluster.links[1, 2]
        link.to_b = [Response(99, 1)] * 1024
        self.refuses(cluster, Why.LinkFull, Announce(1, 2, DOCS))
        self.refuses(cluster, Why.LinkFull, Deliver(1, 2))
        self.refuses(cluster, Why.LinkFull, Deliver(1, 2), failing=1)
        docs(cluster, 2).pulls["hello"] = Pull(entry("hello", Node(Kind.File, 5, data=bytes(BLOCK_SIZE + 1)), 1, ()))
        docs(cluster, 2).views[1].records["hello"] = docs(cluster, 2).pulls["hello"].target
        link.to_a = [Response(99, 1)] * 1024
        self.refuses(cluster, Why.LinkFull, Ask(2, 1, DOCS, "hello"))
        cluster.peers[2].sessions.clear()
        self.refuses(cluster, Why.LinkFull, Begin(2, 1))

    def test_what_is_asked_for(self):
        cluster = empty_cluster(BOTH, BOTH)
        self.answers(cluster, Edit(1, DOCS, "n", Node(Kind.File, 5, data=bytes(65 * BLOCK_SIZE))), Scan(1, DOCS, "n"))
        self.meet(cluster, 1, 2)
        self.refuses(cluster, Why.NothingToDo, Ask(2, 1, DOCS, "n"))
        self.answers(cluster, StartPull(2, DOCS, "n"), *[Ask(2, 1, DOCS, "n")] * 64)
        self.refuses(cluster, Why.NothingToDo, Ask(2, 1, DOCS, "n"))
        self.answers(cluster, Deliver(1, 2), Deliver(2, 1))
        session = cluster.peers[2].sessions[1]
        session.next_id = 2**31
        self.refuses(cluster, Why.NothingToDo, Ask(2, 1, DOCS, "n"))
        session.next_id = 2**31 - 1
        view = docs(cluster, 2).views[1]
        theirs = view.records["n"]
        view.records["n"] = replace(theirs, invalid=True)
        self.refuses(cluster, Why.NothingToDo, Ask(2, 1, DOCS, "n"))
        view.records["n"] = entry("n", text("other"), 1, ((1, 2),))
        self.refuses(cluster, Why.NothingToDo, Ask(2, 1, DOCS, "n"))
        view.records["n"] = theirs
        self.answers(cluster, Ask(2, 1, DOCS, "n"))
        self.assertEqual(cluster.links[1, 2].to_a[-1].offset, 64 * BLOCK_SIZE)

    def test_messages_that_should_not_come_end_the_connection(self):
        def put_on(*messages):
            cluster = one_file_on_both()
            self.answers(cluster, Connect(1, 2), Begin(1, 2), Begin(2, 1))
            cluster.links[1, 2].to_b = list(messages)
            return cluster
        named = ClusterConfig((Announced(DOCS, (11, 1), (0, 0)),))
        hello = entry("hello", text("hello"), 1, ((1, 1),), 1)
        request = Request(1, DOCS, "hello", 0, 5, hello.blocks[0].hash)
        for messages in ([named, named], [Index(DOCS, ())], [IndexUpdate(DOCS, ())], [request],
                         [ClusterConfig(named.folders * 2)], [ClusterConfig((Announced("x", (1, 1), (0, 0)),))],
                         [ClusterConfig(()), Index(DOCS, ())], [named, Index("x", ())],
                         [named, Index(DOCS, (hello,)), IndexUpdate(DOCS, (hello,))]):
            cluster = put_on(*messages)
            for _ in messages[1:]:
                self.answers(cluster, Deliver(2, 1))
            views = copy.deepcopy(docs(cluster, 2).views)
            self.answers(cluster, Deliver(2, 1), LOST)
            link = cluster.links[1, 2]
            self.assertEqual((link.is_up, link.epoch, link.to_a, link.to_b), (False, 1, [], []))
            self.assertEqual(docs(cluster, 2).views, views)
        cluster = put_on(Response(7, 0, b"hello"))
        before = copy.deepcopy(cluster)
        self.answers(cluster, Deliver(2, 1))
        before.links[1, 2].to_b.clear()
        self.assertEqual(cluster, before)
        self.answers(put_on(named, IndexUpdate(DOCS, ())), Deliver(2, 1), Deliver(2, 1))

    def test_a_view_without_room_leaves_the_message(self):
        cluster = one_file_on_both()
        self.meet(cluster, 1, 2)
        docs(cluster, 2).views[1].records = {str(place): entry(str(place), text("x"), 1, ()) for place in range(4096)}
        self.answers(cluster, Edit(1, DOCS, "new", text("x")), Scan(1, DOCS, "new"), Announce(1, 2, DOCS))
        self.refuses(cluster, Why.IndexFull, Deliver(2, 1))

    def test_blocks_of_a_pull_that_is_gone_or_another_one_are_not_kept(self):
        cluster = empty_cluster(BOTH, BOTH)
        self.answers(cluster, Edit(1, DOCS, "n", text("one")), Scan(1, DOCS, "n"))
        self.meet(cluster, 1, 2)
        self.answers(cluster, StartPull(2, DOCS, "n"), Ask(2, 1, DOCS, "n"), Deliver(1, 2))
        docs(cluster, 2).pulls.clear()
        self.answers(cluster, Deliver(2, 1))
        self.assertEqual(cluster.peers[2].sessions[1].outstanding, [])
        self.answers(cluster, StartPull(2, DOCS, "n"), Ask(2, 1, DOCS, "n"), Deliver(1, 2))
        docs(cluster, 2).pulls["n"] = Pull(entry("n", text("two"), 1, ((1, 1),)))
        self.answers(cluster, Deliver(2, 1))
        self.assertEqual(docs(cluster, 2).pulls["n"].received, {})

    def test_an_answer_must_have_the_bytes_that_were_asked_for(self):
        cluster = empty_cluster(BOTH, BOTH)
        self.answers(cluster, Edit(1, DOCS, "n", text("one")), Scan(1, DOCS, "n"))
        self.meet(cluster, 1, 2)
        self.answers(cluster, StartPull(2, DOCS, "n"))
        session, pull = cluster.peers[2].sessions[1], docs(cluster, 2).pulls["n"]
        for number, wrong in enumerate(((0, b"two"), (0, b"ones"), (0, b""), (1, b"one"), (3, b"one")), start=1):
            self.answers(cluster, Ask(2, 1, DOCS, "n"))
            cluster.links[1, 2].to_a.clear()
            cluster.links[1, 2].to_b.append(Response(number, *wrong))
            self.answers(cluster, Deliver(2, 1))
            self.assertEqual((session.outstanding, pull.received), ([], {}))

    def test_a_restart_takes_sessions_pulls_and_connections(self):
        cluster = empty_cluster(BOTH, BOTH, BOTH)
        self.answers(cluster, Edit(1, DOCS, "n", text("one")), Scan(1, DOCS, "n"))
        self.meet(cluster, 1, 2)
        self.answers(cluster, Connect(1, 3), Begin(1, 3), StartPull(2, DOCS, "n"), Ask(2, 1, DOCS, "n"))
        before = copy.deepcopy(cluster)
        self.answers(cluster, Restart(2))
        self.assertEqual((cluster.peers[2].sessions, docs(cluster, 2).pulls), ({}, {}))
        lost = cluster.links[1, 2]
        self.assertEqual((lost.is_up, lost.epoch, lost.to_a), (False, 1, []))
        for same in ("views", "index", "store"):
            self.assertEqual(getattr(docs(cluster, 2), same), getattr(docs(before, 2), same))
        self.assertEqual((cluster.peers[1], cluster.links[1, 3]), (before.peers[1], before.links[1, 3]))
        self.refuses(cluster, Why.LinkDown, Deliver(1, 2))

    def test_devices_folders_and_links_that_are_not_there(self):
        cluster = Cluster.new(Config({DOCS: (Share(1, BOTH, 11), Share(2, BOTH, 12)),
                                      "mine": (Share(1, BOTH, 13), Share(3, BOTH, 14))}, ((1, 2),)))
        node = text("x")
        for device, folder in ((4, DOCS), (1, "x"), (2, "mine")):
            for step in (Edit(device, folder, "n", node), Remove(device, folder, "n"), Scan(device, folder, "n"),
                         Override(device, folder, "n"), Revert(device, folder, "n"), StartPull(device, folder, "n"),
                         Finish(device, folder, "n")):
                self.refuses(cluster, Why.NotShared, step)
        for a, b in ((2, 1), (1, 3), (1, 1), (1, 4)):
            self.refuses(cluster, Why.NotShared, Connect(a, b))
            self.refuses(cluster, Why.NotShared, Lose(a, b))
        for device, other in ((1, 3), (3, 1), (1, 1), (4, 1)):
            self.refuses(cluster, Why.NotShared, Begin(device, other))
            self.refuses(cluster, Why.NotShared, Deliver(device, other))
        for device, other, folder in ((1, 3, "mine"), (1, 2, "mine"), (2, 1, "mine"), (1, 2, "x")):
            self.refuses(cluster, Why.NotShared, Announce(device, other, folder))
            self.refuses(cluster, Why.NotShared, Ask(device, other, folder, "n"))
        self.refuses(cluster, Why.NotShared, Restart(4))


if __name__ == "__main__":
    unittest.main()
