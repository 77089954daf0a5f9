#!/usr/bin/env python3
"""Random runs, by hand: what prevails goes on prevailing, and comes to all.

    second/converge_runs.py [COUNT [SEED]]

COUNT runs of each kind (1000 if not given), each from a prevailing cluster made at random.

A run of the first kind takes quiet steps of orderly peers, store calls failing among them, links being lost, devices
starting again. After each one the cut must prevail, with the same tops. Each device must have of each name what it had
at first, or the content and version of a record that was known then and is above its own one. No name may have come.

A run of the second kind has a link between each two devices, and takes steps of this project's peers alone, each of
which has something to do, in any order. Such a run must end, with each device at the top of each name. Then the cut must
be firm, unless a device without a record hears of an old one that isn't deleted.

A run of the third kind takes some such steps, and then brings each name to each device that isn't at its top, by the run of
bring.py, in any order and from any owner of the top. Each of its steps must be done, it must end within its bound, and no
other device may come to another top by it.
"""

import contextlib
import itertools
import random
import sys
from collections import Counter
from functools import partial
from unittest import mock

from bring import bring
from cluster import index
from cluster.core import Cluster
from cluster.link import Index, IndexUpdate, Link
from cluster.refusal import Moved
from cluster.step import Step
from free_runs import firm_rows
from orderly import OrderlyReplica
from prevailing import PrevailingMaking
from prevails import Key, Name, broken, names_of
from runs import Contradiction, Walk, small_limits
from settled import settled_cluster
from verdict import content, content_of_node, is_below

MOST_STEPS = 3000


def top_of(at: Name) -> tuple:
    """Version and content of the top."""
    top = at.tops()[0]
    return top["version"], content(top)


class Prevailing:
    """A cluster at a moment at which it prevailed."""

    def __init__(self, cluster: Cluster):
        self.names = names_of(cluster)
        self.tops = {key: top_of(at) for key, at in self.names.items()}

    def check(self, cluster: Cluster, step: Step | None) -> None:
        """Looks that it prevails still, at the same tops, and that each device stayed or rose."""
        for found in broken(cluster):
            raise Contradiction("the cut doesn't prevail any more", step, found)
        now = names_of(cluster)
        if not set(now) <= set(self.names):
            raise Contradiction("a name has come", step, set(now) - set(self.names))
        if {key: top_of(at) for key, at in now.items()} != self.tops:
            raise Contradiction("a top isn't what it was", step)
        for key, at in now.items():
            self.check_name(key, at, step)

    def check_name(self, key: Key, at: Name, step: Step | None) -> None:
        """Looks that each device has of the name what it had, or what a record above its own one told."""
        for device, before in zip(at.devices, self.names[key].devices):
            had, has = before.own.get(at.name), device.own.get(at.name)
            if (had, before.store.get(at.name)) == (has, device.store.get(at.name)):
                continue
            above = [entry for entry in self.names[key].records
                     if had is None or is_below(had["version"], entry["version"])]
            now = has["version"], content(has), content_of_node(device.store.get(at.name))
            if now not in [(entry["version"], content(entry), content(entry)) for entry in above]:
                raise Contradiction("a device neither stayed nor rose", step, key, device.number)


def checked_start(making: PrevailingMaking, cluster: Cluster) -> tuple[Walk, Prevailing]:
    """A walk from a cluster that must prevail."""
    for found in broken(cluster):
        raise Contradiction("the cluster that was made doesn't prevail", found)
    return Walk(making, cluster), Prevailing(cluster)


def run_of_orderly_peers(making: PrevailingMaking, answers: Counter, replica=OrderlyReplica) -> None:
    """A run of quiet steps of orderly peers from a prevailing cluster made at random."""
    walk, was = checked_start(making, settled_cluster(making, partial(replica, random=making.random)))
    for _ in range(making.random.choice([20, 60, 100])):
        step = walk.quiet_step()
        walk.take(step)
        was.check(walk.cluster, step)
    answers.update(walk.answers)


def link_all(cluster: Cluster) -> None:
    """Each two devices have a link, whichever had one before."""
    for a, b in itertools.combinations(sorted(cluster.peers), 2):
        cluster.links.setdefault((a, b), Link(a, b))


def open_anew(cluster: Cluster) -> None:
    """No device has a session, only records are on their way, and no view has a gap: as it is of each cut of a cluster
    that runs led to."""
    for link in cluster.links.values():
        for queue in (link.to_a, link.to_b):
            queue[:] = [one for one in queue if isinstance(one, Index | IndexUpdate)]
    for peer in cluster.peers.values():
        peer.sessions.clear()
        for folder, one in peer.replicas.items():
            for other, view in one.views.items():
                index = cluster.peers[other].replicas[folder].index
                if view.id == index.id:
                    view.sequence = min(view.sequence, index.max_sequence)
                    view.records = {name: record for name, record in index.records.items()
                                    if record.sequence <= view.sequence}


def come_to_end(walk: Walk, was: Prevailing | None = None) -> bool:
    """Takes steps in any order, until none is left that moves anything; whether that came."""
    idle = set()
    for _ in range(MOST_STEPS):
        step = walk.random.choice([one for one in walk.open_steps() if one not in idle] or [None])
        if step is None:
            return True
        answer = walk.cluster.apply(step)
        walk.answers[type(step).__name__, answer.name] += 1
        idle = set() if isinstance(answer, Moved) else idle | {step}
        if was:
            was.check(walk.cluster, step)
    return False


def hears_of_none(cluster: Cluster) -> bool:
    """Whether each device hears only of deletions where it has no record."""
    return all(entry["deleted"] for at in names_of(cluster).values() for device in at.devices
               if at.name not in device.own for entry in device.held(at.name))


def run_to_the_end(making: PrevailingMaking, answers: Counter) -> None:
    """A run of this project's peers, none of whose steps is refused for good, to its end."""
    cluster = settled_cluster(making)
    link_all(cluster)
    open_anew(cluster)
    walk, was = checked_start(making, cluster)
    if not come_to_end(walk, was):
        raise Contradiction("the run doesn't end")
    for key, at in names_of(cluster).items():
        for device in at.devices:
            if not at.is_at_top(device):
                raise Contradiction("a device isn't at the top in the end", key, device.number)
    if hears_of_none(cluster) and firm_rows(cluster) is None:
        raise Contradiction("all devices are at the top, and the cut isn't firm")
    answers.update(walk.answers)


def behind(cluster: Cluster) -> list[tuple[Key, int]]:
    """Each name with each device that isn't at its top."""
    return [(key, device.number) for key, at in names_of(cluster).items() for device in at.devices if not at.is_at_top(device)]


def bring_one(walk: Walk, was: Prevailing, key: Key, device: int) -> None:
    """Brings the name to the device, from any owner of its top."""
    def take(step: Step) -> None:
        answer = walk.cluster.apply(step)
        walk.answers[type(step).__name__, answer.name] += 1
        if answer is not Moved.Changed:
            raise Contradiction("a step that brings a name isn't done", step, answer)
        was.check(walk.cluster, step)

    at = names_of(walk.cluster)[key]
    tops = at.tops()
    owners = [one.number for one in at.devices if one.own.get(at.name) in tops]
    bring(walk.cluster, device, walk.random.choice(owners), key[0].decode(), key[1].decode(), take)


def take_some(walk: Walk, count: int) -> None:
    """Takes so many steps that have something to do, or fewer where none is left."""
    for _ in range(count):
        steps = list(walk.open_steps())
        if not steps:
            return
        walk.cluster.apply(walk.random.choice(steps))


def run_of_brings(making: PrevailingMaking, answers: Counter) -> None:
    """A run that begins with some steps of this project's peers, and then brings each name to all."""
    cluster = settled_cluster(making)
    link_all(cluster)
    open_anew(cluster)
    walk, was = checked_start(making, cluster)
    take_some(walk, making.random.randint(0, 40))
    with mock.patch.object(index, "MOST_RECORDS", making.random.choice([1, 2, 1000])):
        left = behind(cluster)
        while left:
            pair = making.random.choice(left)
            bring_one(walk, was, *pair)
            if behind(cluster) != [one for one in left if one != pair]:
                raise Contradiction("not one pair alone came to its top", pair, left, behind(cluster))
            left = behind(cluster)
    answers.update(walk.answers)


def main() -> None:
    """Makes the runs, and tells how often each step answered what."""
    count = int(sys.argv[1]) if len(sys.argv) > 1 else 1000
    seed = int(sys.argv[2]) if len(sys.argv) > 2 else 1
    orderly, ended, brought = Counter(), Counter(), Counter()
    for number in range(seed, seed + count):
        with small_limits() if number % 2 else contextlib.nullcontext():
            try:
                run_of_orderly_peers(PrevailingMaking(random.Random(number)), orderly)
            except Contradiction as found:
                sys.exit(f"run {number}: {found}")
        try:
            run_to_the_end(PrevailingMaking(random.Random(number)), ended)
        except Contradiction as found:
            sys.exit(f"run {number} to its end: {found}")
        try:
            run_of_brings(PrevailingMaking(random.Random(number)), brought)
        except Contradiction as found:
            sys.exit(f"run {number} of brings: {found}")
    for title, answers in (("of orderly peers", orderly), ("to their ends", ended), ("of brings", brought)):
        print(f"{count} runs {title}, {sum(answers.values())} steps")
        for (step, answer), times in sorted(answers.items()):
            print(f"{times:9} {step} {answer}")
    print("no contradiction")


if __name__ == "__main__":
    main()
