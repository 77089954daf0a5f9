#!/usr/bin/env python3
"""Random runs of free peers, by hand: what is firm stays firm.

    second/free_runs.py [COUNT [SEED]]

COUNT runs of each kind (1000 if not given).

A run of the first kind begins at a firm cluster made at random, and takes quiet steps of free peers, store calls
failing among them. After each one all nodes must be as they were, their times too, and all own records in all fields;
and the cut must be firm, for the very same winners.

A run of the second kind begins at the empty cluster and takes local and quiet steps of free peers. From the first firm
cut with a name on all steps are quiet, and the same must hold.

Every other run has small limits, so that batches are cut, queues fill, and counters and sequences end.
"""

import contextlib
import random
import sys
from collections import Counter
from dataclasses import replace
from functools import partial

import firm
import verdict
from cluster.core import Cluster
from cluster.cut import NoWinner, certify, cut_of
from cluster.record import Record
from cluster.step import Step
from free import FreeReplica
from runs import Contradiction, Walk, nodes_and_records, small_limits
from settled import Making, random_config, settled_cluster


class FirmMaking(Making):
    """A firm cluster that is being made: each name has one version, which all own records have, and which bounds all
    others."""

    def __init__(self, numbers: random.Random):
        super().__init__(numbers)
        self.greatest = {}

    def own_record(self, name, body, sequence) -> Record:
        """A record of that body, at any time, and at the name's version."""
        return self.record_at(name, body, sequence, self.greatest.setdefault(name, self.version()))

    def harmless(self, name, body, own, sequence, may_be_invalid=True) -> Record:
        """A record that may be known at a device with this own record, at a version that is at most the name's."""
        if may_be_invalid and self.happens(0.1):
            return replace(self.record(name, self.body(), sequence), invalid=True)
        greatest = self.greatest.setdefault(name, self.version())
        counters = [(device, self.random.randint(0, value)) for device, value in greatest]
        version = tuple(counter for counter in counters if counter[1])
        is_old = own is not None and version != greatest
        return self.record_at(name, self.body() if is_old else body, sequence, version)


def firm_rows(cluster: Cluster) -> list[dict] | None:
    """The list of the winners of the cluster's cut, where it is firm."""
    cut = cut_of(cluster)
    try:
        rows = certify(cut)
    except NoWinner:
        return None
    return rows if firm.first_fault(verdict.Cut(cut), rows) is None else None


class Firm:
    """A cluster at a moment at which it was firm."""

    def __init__(self, cluster: Cluster, rows: list[dict]):
        self.rows = rows
        self.nodes_and_records = nodes_and_records(cluster)

    def check(self, cluster: Cluster, step: Step) -> None:
        """Looks that all nodes and own records are as they were, and the cut is firm for the same rows."""
        if nodes_and_records(cluster) != self.nodes_and_records:
            raise Contradiction("a node or an own record isn't as it was", step)
        if firm_rows(cluster) != self.rows:
            raise Contradiction("the cut isn't firm any more, or has other winners", step)


def free_replica(making: Making) -> partial:
    """What makes a folder at a free peer."""
    return partial(FreeReplica, random=making.random)


def run_from_firm(making: FirmMaking, answers: Counter) -> None:
    """A run of quiet steps from a firm cluster made at random."""
    walk = Walk(making, settled_cluster(making, free_replica(making)))
    rows = firm_rows(walk.cluster)
    if rows is None:
        raise Contradiction("the cluster that was made isn't firm")
    was = Firm(walk.cluster, rows)
    for _ in range(making.random.choice([20, 60, 100])):
        step = walk.quiet_step()
        walk.take(step)
        was.check(walk.cluster, step)
    answers.update(walk.answers)


def run_from_empty(making: Making, answers: Counter) -> bool:
    """A run from the empty cluster; whether it came to a firm cut with a name."""
    walk = Walk(making, Cluster.new(random_config(making), free_replica(making)))
    for _ in range(making.random.choice([5, 20, 60])):
        walk.take(walk.local_step() if making.happens(0.3) else walk.quiet_step())
    was = None
    for number in range(making.random.choice([100, 200, 300])):
        step = walk.quiet_step() if was or making.happens(0.8) else walk.step_back()
        walk.take(step)
        if was:
            was.check(walk.cluster, step)
        elif number % 5 == 4:
            rows = firm_rows(walk.cluster)
            was = Firm(walk.cluster, rows) if rows else None
    answers.update(walk.answers)
    return was is not None


def main() -> None:
    """Makes the runs, and tells how often each step answered what."""
    count = int(sys.argv[1]) if len(sys.argv) > 1 else 1000
    seed = int(sys.argv[2]) if len(sys.argv) > 2 else 1
    from_firm, from_empty, became = Counter(), Counter(), 0
    for number in range(seed, seed + count):
        with small_limits() if number % 2 else contextlib.nullcontext():
            try:
                run_from_firm(FirmMaking(random.Random(number)), from_firm)
                became += run_from_empty(Making(random.Random(number)), from_empty)
            except Contradiction as found:
                sys.exit(f"run {number}: {found}")
    for title, answers in (("from firm clusters", from_firm), ("from the empty cluster", from_empty)):
        print(f"{count} runs {title}, {sum(answers.values())} steps")
        for (step, answer), times in sorted(answers.items()):
            print(f"{times:9} {step} {answer}")
    print(f"{became} of the runs from the empty cluster came to a firm cut with names: no contradiction")


if __name__ == "__main__":
    main()
