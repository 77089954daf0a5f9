#!/usr/bin/env python3
"""What is settled stays put: a fixed list of 200 quiet steps from a settled cluster of three devices, where every
seventh store call at each device fails.

    second/test_settled.py
"""

import unittest

from cases import BOTH, DOCS, RECEIVE, SEND, docs, empty_cluster, entry, put, text
from cluster.core import Cluster
from cluster.cut import first_fault, settled_contents, stores_of
from cluster.exchange import Session
from cluster.index import View
from cluster.link import Index, IndexUpdate
from cluster.record import Kind, Node, deletion
from cluster.refusal import Moved, Why
from cluster.replica import Pull
from calm import broken_calm
from cluster.step import Announce, Ask, Begin, Connect, Deliver, Finish, Lose, Reset, Restart, Scan, StartPull, Step

NAMES = ["file", "gone", "folder", "link", "empty"]


def settled_cluster() -> Cluster:
    """Three devices that agree in contents, though their versions and times differ; an old file stands in views, in
    pulls and on its way to each of them."""
    made = empty_cluster(BOTH, SEND, RECEIVE)
    old = entry("file", text("old", 900), 1, ((1, 1),), sequence=9)
    gone = entry("gone", text("gone"), 1, ((1, 1),), sequence=3)
    for device in (1, 2, 3):
        nodes = {"file": text("hello", 1000 + device), "folder": Node(Kind.Directory, device),
                 "link": Node(Kind.Symlink, 5, target="file"), "empty": text("", 7)}
        for name, node in nodes.items():
            put(made, device, entry(name, node, device, ((1, 2), (device + 1, 1))), node)
        docs(made, device).pulls["file"] = Pull(old, {} if device == 3 else {0: b"old"})
    for device in (1, 2):
        put(made, device, deletion("gone", gone, device, ((1, 2), (device + 1, 1))), None)
    docs(made, 1).views[2] = View(12, 9, {"file": old, "gone": gone})
    docs(made, 2).views[3] = View(99, 9, {"file": old})
    for a, b in made.links:
        made.links[a, b].is_up, made.links[a, b].epoch = True, 3
        made.peers[a].sessions[b] = Session(3, True, {DOCS: 2})
        made.peers[b].sessions[a] = Session(3, True, {DOCS: "full"})
        made.links[a, b].to_b += [Index(DOCS, ()), IndexUpdate(DOCS, (old,))]
        made.links[a, b].to_a += [IndexUpdate(DOCS, (old,))]
    for peer in made.peers.values():
        peer.faults.is_due = lambda number: number % 7 == 0
    return made


def round_of(a: int, b: int) -> list[Step]:
    """Twenty quiet steps between two devices, from a connection to its loss."""
    return [Connect(a, b), Begin(a, b), Begin(b, a), Deliver(b, a), Deliver(a, b), Announce(a, b, DOCS), Deliver(b, a),
            Announce(b, a, DOCS), Deliver(a, b), *(Scan(a, DOCS, name) for name in NAMES[:2]),
            *(StartPull(b, DOCS, name) for name in NAMES[:3]), Ask(b, a, DOCS, "file"),
            *(Finish(b, DOCS, name) for name in NAMES[:3]), Scan(b, DOCS, "file"), Lose(a, b)]


LINKS = [(1, 2), (1, 3), (2, 3)]
WAITING = [Deliver(b, a) for a, b in LINKS] * 2 + [Deliver(a, b) for a, b in LINKS]
OLD_FILE = [Ask(3, 1, DOCS, "file"), Deliver(1, 3), Deliver(3, 1), Finish(1, DOCS, "file"), Finish(3, DOCS, "file")]
PULLS = [step(device, DOCS, name) for device in (1, 2, 3) for name in NAMES for step in (StartPull, Finish)]
ROUNDS = [step for ends in LINKS for step in round_of(*ends)]
STEPS = [*WAITING, *OLD_FILE, *PULLS, Lose(1, 2), Reset(1, 11), Restart(3), *ROUNDS, *PULLS, Restart(1), *ROUNDS,
         Restart(2), Connect(2, 3)]
TAKEN = {(StartPull, Moved.Changed), (Finish, Moved.Changed), (Finish, Moved.Dropped), (Finish, Why.StoreFault),
         (Scan, Moved.Unchanged), (Scan, Why.StoreFault), (Deliver, Moved.LinkLost), (Ask, Moved.Changed),
         (Reset, Why.IndexIdOld)}




def scans(device: int) -> list[Step]:
    """A scan of each name."""
    return [Scan(device, DOCS, name) for name in NAMES]


RESETS = [*WAITING, *OLD_FILE, Reset(2, 102), *ROUNDS, *scans(2), *round_of(1, 2), *PULLS, Reset(3, 103),
          *round_of(2, 3), *scans(3), Reset(1, 101), *round_of(1, 3), *scans(1), Reset(1, 101), *round_of(1, 2)[:17]]
TAKEN_WITH_RESETS = {(Reset, Moved.Changed), (Reset, Why.IndexIdOld), (Scan, Moved.Changed), (Scan, Why.StoreFault),
                     (StartPull, Moved.Changed), (Finish, Moved.Changed), (Finish, Why.Unscanned)}


class WhatIsSettledStaysPut(unittest.TestCase):
    """After each step the stores are kept, and the cut is settled for the list of its own winners, refused resets among
    the steps; where devices are reset, it is calm for the same contents."""

    def test_two_hundred_quiet_steps_while_stores_fail(self):
        cluster = settled_cluster()
        stores, contents = stores_of(cluster), settled_contents(cluster)
        self.assertIsNone(first_fault(cluster))
        self.assertEqual(len(STEPS), 200)
        answers = set()
        for place, step in enumerate(STEPS, start=1):
            answers.add((type(step), cluster.apply(step)))
            self.assertEqual(stores_of(cluster), stores, (place, step))
            self.assertEqual(settled_contents(cluster), contents, (place, step, first_fault(cluster)))
        self.assertLessEqual(TAKEN, answers)

    def test_two_hundred_quiet_steps_with_resets_and_scans_while_stores_fail(self):
        cluster = settled_cluster()
        stores, contents = stores_of(cluster), settled_contents(cluster)
        self.assertEqual(len(RESETS), 200)
        answers, reset = set(), set()
        for place, step in enumerate(RESETS, start=1):
            answer = cluster.apply(step)
            answers.add((type(step), answer))
            if isinstance(step, Reset) and answer == Moved.Changed:
                reset.add(step.device)
            self.assertEqual(stores_of(cluster), stores, (place, step))
            self.assertIsNone(broken_calm(cluster, contents, reset), (place, step))
        self.assertLessEqual(TAKEN_WITH_RESETS, answers)


if __name__ == "__main__":
    unittest.main()
