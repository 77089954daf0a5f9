#!/usr/bin/env python3
"""When the logs of a run fit: logs made by hand, torn copies of a scenario and of random runs, and what the merged list of
logs that fit makes of their bases.

    second/test_fit.py
"""

import copy
import random
import unittest
from collections import Counter

from cases import BOTH, DOCS, RECEIVE, empty_cluster, text
from cluster.core import Cluster
from cluster.refusal import Moved, Why
from cluster.step import Announce, Ask, Begin, Connect, Deliver, Edit, Finish, Lose, Restart, Scan, StartPull
from fit import Log, differing, verdict
from logs import LoggedCluster, cluster_of, merged
from runs import Walk
from settled import Making, random_config

CONNECT = {"step": ["connect", 1, 2]}
BEGIN = {"step": ["begin", 1, 2], "sent": "config"}
STEPS = [Edit(1, DOCS, "hello", text("hello")), Scan(1, DOCS, "hello"), Connect(1, 2), Begin(1, 2), Begin(2, 1),
         Deliver(2, 1), Deliver(1, 2), Announce(1, 2, DOCS), Deliver(2, 1), StartPull(2, DOCS, "hello"),
         Ask(2, 1, DOCS, "hello"), Deliver(1, 2), Deliver(2, 1), Finish(2, DOCS, "hello"), Finish(2, DOCS, "hello")]


def log(*thing: int, round: int = 0, events: dict | None = None) -> Log:
    """A log with these events by ticket."""
    return Log(thing, round, [{"ticket": ticket} | event for ticket, event in (events or {}).items()])


def misfit(*thing: int, ticket: int) -> dict:
    """The verdict that names this object and ticket."""
    return {"misfit": list(thing), "ticket": ticket}


class LogsByHand(unittest.TestCase):
    """Two devices and their link: it comes up, and the first begins a session."""

    def fits(self, expected: dict, *logs: Log) -> None:
        """The logs have this verdict, in whatever order they stand."""
        self.assertEqual(verdict(logs), expected)
        self.assertEqual(verdict(reversed(logs)), expected)

    def test_copies_after_both_events_fit(self):
        self.fits({"fits": 2}, log(1, events={2: BEGIN}), log(2), log(1, 2, events={1: CONNECT, 2: BEGIN}))

    def test_a_copy_before_the_session_lacks_it(self):
        self.fits(misfit(1, 2, ticket=2), log(1), log(2), log(1, 2, events={1: CONNECT, 2: BEGIN}))
        self.fits(misfit(1, ticket=2), log(1, events={2: BEGIN}), log(2), log(1, 2, events={1: CONNECT}))

    def test_a_device_in_another_round_comes_before_all_faults(self):
        self.fits(misfit(2, ticket=0), log(1, events={2: BEGIN}), log(2, round=1), log(1, 2, events={1: CONNECT}))

    def test_the_first_object_gives_the_round(self):
        self.fits(misfit(2, ticket=0), log(1, round=1), log(2), log(1, 2))
        self.fits(misfit(1, 2, ticket=0), log(1, round=1), log(2, round=1), log(1, 2))

    def test_no_logs_and_no_events_fit(self):
        self.fits({"fits": 0})
        self.fits({"fits": 0}, log(1, round=7), log(2, round=7), log(1, 2, round=7))

    def test_an_event_stands_under_one_ticket_in_both_logs(self):
        self.fits(misfit(1, ticket=2), log(1, events={2: BEGIN}), log(2), log(1, 2, events={1: CONNECT, 3: BEGIN}))

    def test_another_event_under_the_ticket_is_one_too_many(self):
        scan = {"step": ["scan", 1, "docs", "a"]}
        other = BEGIN | {"sent": "another config"}
        self.fits(misfit(1, ticket=2), log(1, events={2: other}), log(2), log(1, 2, events={1: CONNECT, 2: BEGIN}))
        # both devices touch nothing but themselves, and yet have one ticket
        self.fits(misfit(1, ticket=5), log(1, events={5: scan}), log(2, events={5: {"step": ["scan", 2, "docs", "a"]}}))

    def test_an_event_stands_nowhere_else(self):
        self.fits(misfit(1, ticket=2), log(1, events={2: BEGIN}), log(2, events={2: BEGIN}),
                  log(1, 2, events={1: CONNECT, 2: BEGIN}))
        self.fits(misfit(1, ticket=1), log(1, events={1: CONNECT, 2: BEGIN}), log(2),
                  log(1, 2, events={1: CONNECT, 2: BEGIN}))

    def test_tickets_rise_in_each_log(self):
        edit, scan = {"step": ["edit", 1, "docs", "a", "node"]}, {"step": ["scan", 1, "docs", "a"]}
        self.fits({"fits": 2}, log(1, events={4: edit, 6: scan}))
        self.fits(misfit(1, ticket=4), log(1, events={6: scan, 4: edit}))
        twice = [{"ticket": 4} | edit, {"ticket": 4} | edit]
        self.fits(misfit(1, ticket=4), Log((1,), 0, twice))

    def test_the_least_ticket_comes_before_the_first_object(self):
        remove = {"step": ["remove", 2, "docs", "a"]}
        self.fits(misfit(2, ticket=2), log(1, events={3: BEGIN}), log(2, events={2: BEGIN}), log(1, 2))
        self.fits(misfit(1, 2, ticket=1), log(1, events={3: BEGIN}), log(2, events={2: remove}),
                  log(1, 2, events={1: BEGIN}))

    def test_a_restart_touches_the_device_and_each_of_its_links(self):
        restart = {"step": ["restart", 1]}
        others = [log(2), log(3), log(2, 3)]
        self.fits({"fits": 1}, log(1, events={1: restart}), *others, log(1, 2, events={1: restart}),
                  log(1, 3, events={1: restart}))
        self.fits(misfit(1, ticket=1), log(1, events={1: restart}), *others, log(1, 2, events={1: restart}), log(1, 3))
        self.fits(misfit(1, ticket=1), log(1, events={1: restart}), log(2), log(3), log(2, 3, events={1: restart}),
                  log(1, 2, events={1: restart}), log(1, 3, events={1: restart}))

    def test_what_an_event_names_has_a_log(self):
        self.fits(misfit(1, ticket=2), log(1, events={2: BEGIN}), log(2))
        self.fits(misfit(1, 2, ticket=1), log(1), log(1, 2, events={1: {"step": ["begin", 3, 1]}}))

    def test_a_line_is_compared(self):
        line = '{"logs":[{"object":[1],"round":0,"events":[{"ticket":3,"step":["scan",1,"docs","a"]}]}],"verdict":%s}'
        self.assertEqual(differing(line % '{"fits":1}'), "")
        self.assertTrue(differing(line % '{"fits":2}'))
        self.assertTrue(differing(line % '{"misfit":[1],"ticket":3}'))


class TornCopies(unittest.TestCase):
    """Copies that are taken at several moments of a run."""

    def assert_one_run(self, cut: dict) -> None:
        """The merged list of logs that fit makes of their bases what the objects are."""
        cluster = cluster_of({thing: kept.base for thing, kept in cut.items()})
        for event in merged(cut):
            answer = cluster.apply(self.steps[event["ticket"]], event["failed"])
            self.assertTrue(isinstance(answer, Moved) or (event["kept"] and answer == Why.StoreFault), event)
        self.assertEqual(cluster, cluster_of({thing: kept.now for thing, kept in cut.items()}))

    def play(self, cluster: LoggedCluster, steps: list, failing: dict[int, int] | None = None) -> list[dict]:
        """Takes the steps, and gives what all objects were before them and after each."""
        self.steps = dict(enumerate(steps, 1))
        moments = [cluster.moment()]
        for number, step in self.steps.items():
            cluster.apply(step, (failing or {}).get(number))
            moments.append(cluster.moment())
        return moments

    def check(self, cut: dict) -> dict:
        """The cut's verdict; where it fits, it is of one run."""
        found = verdict(kept.log for kept in cut.values())
        if "fits" in found:
            self.assertEqual(found["fits"], len(merged(cut)))
            self.assert_one_run(cut)
        return found

    def test_each_pair_of_moments_of_the_scenario(self):
        moments = self.play(LoggedCluster(empty_cluster(BOTH, BOTH)), STEPS)
        of_the_first, over_the_link = {1, 2, 4, 7, 8, 12}, [4, 7, 8, 12]
        for early, first in enumerate(moments):
            for late, rest in enumerate(moments):
                torn = [ticket for ticket in over_the_link if min(early, late) < ticket <= max(early, late)]
                # the last step is refused
                there = {ticket for ticket in range(1, 15) if ticket <= (early if ticket in of_the_first else late)}
                expected = misfit(*((1, 2) if early < late else (1,)), ticket=torn[0]) if torn else {"fits": len(there)}
                self.assertEqual(self.check(rest | {(1,): first[1,]}), expected, (early, late))

    def test_a_kept_copy_and_a_failed_read_are_replayed(self):
        cluster = empty_cluster(BOTH, BOTH)
        steps = [Edit(1, DOCS, "a", text("one", 900)), Scan(1, DOCS, "a"), Edit(2, DOCS, "a", text("two")),
                 Scan(2, DOCS, "a"), Connect(1, 2), Begin(1, 2), Begin(2, 1), Deliver(2, 1), Deliver(1, 2),
                 Announce(2, 1, DOCS), Deliver(1, 2), StartPull(1, DOCS, "a"), Ask(1, 2, DOCS, "a"), Deliver(2, 1),
                 Deliver(1, 2), Ask(1, 2, DOCS, "a"), Deliver(2, 1), Deliver(1, 2), Finish(1, DOCS, "a"),
                 Finish(1, DOCS, "a"), Restart(1), Lose(1, 2), Connect(1, 2)]
        logged = LoggedCluster(cluster)
        moments = self.play(logged, steps, {14: 1, 19: 4})
        events = {event["ticket"]: event for event in merged(moments[-1])}
        self.assertEqual((events[14]["failed"], events[14]["kept"]), (1, False))
        self.assertEqual((events[19]["failed"], events[19]["kept"]), (4, True))
        self.assertNotIn(22, events)
        self.assertEqual(self.check(moments[-1]), {"fits": 22})

    def test_logs_begin_anew(self):
        logged = LoggedCluster(empty_cluster(BOTH, RECEIVE))
        self.play(logged, STEPS[:8])
        before = logged.moment()
        logged.rebase(1)
        middle = logged.moment()
        self.assertEqual(self.check(middle), {"fits": 0})
        for thing, first in ((1,), (2,)), ((2,), (2,)), ((1, 2), (1, 2)):
            self.assertEqual(self.check(middle | {thing: before[thing]}), misfit(*first, ticket=0))

    def random_moments(self, making: Making) -> list[dict]:
        """What all objects are before a random run of 40 steps, and after each."""
        walk = Walk(making, Cluster.new(random_config(making)))
        logged, self.steps = LoggedCluster(copy.deepcopy(walk.cluster)), {}
        moments = [logged.moment()]
        for number in range(1, 41):
            step, place = walk.local_step() if making.happens(0.3) else walk.quiet_step(), walk.failing()
            self.assertEqual(logged.apply(step, place), walk.cluster.apply(step, place))
            self.steps[number] = step
            moments.append(logged.moment())
        return moments

    def test_random_runs(self):
        found = Counter()
        for seed in range(40):
            making = Making(random.Random(seed))
            moments = self.random_moments(making)
            for _ in range(20):
                early = making.random.randint(0, 40)
                late = min(40, early + making.random.choice([1, 4, 40]))
                found.update(self.check({thing: making.random.choice([moments[early][thing], kept])
                                         for thing, kept in moments[late].items()}).keys())
        self.assertGreater(min(found["fits"], found["misfit"]), 100, found)


if __name__ == "__main__":
    unittest.main()
