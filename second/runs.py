#!/usr/bin/env python3
"""Random runs, by hand: what is settled stays put, and what holds of every cluster holds after each step.

    second/runs.py [COUNT [SEED]]

COUNT runs of each kind (1000 if not given).

A run of the first kind begins at a settled cluster made at random and takes quiet steps, store calls failing and index
resets refused among them. After each one the stores must be kept, the cut settled for the list of its own winners, with
the same names and contents, and no own record gone.

A run of the second kind begins at a settled cluster, or at a calm one made at random, and has index resets too. After
each step the stores must be kept, and the cluster calm for the same contents, where only the devices that were reset
lack a record.

A run of the third kind begins at the empty cluster and takes local and quiet steps, some of them resets too. After
each one no view may have a gap, the other rules of every cluster must hold, and no node may be lost that wasn't clean
against its own record. From the first settled cut on all steps are quiet, and the first kind's conditions must hold
too.

Every other run has small limits, so that batches are cut, queues fill, and counters and sequences end.
"""

import contextlib
import copy
import random
import sys
from collections import Counter
from collections.abc import Iterator
from unittest import mock

from calm import CalmMaking, Contents, broken_calm, calm_cluster
from cluster import exchange, index, link, replica, rules, version
from cluster.choice import FolderKind
from cluster.core import Cluster
from cluster.cut import settled_contents, stores_of
from cluster.record import is_clean
from cluster.refusal import Moved, Why
from cluster.step import (Announce, Ask, Begin, Connect, Deliver, Edit, Finish, Lose, Override, Remove, Reset, Restart,
                          Revert, Scan, StartPull, Step)
from settled import NAMES, TIMES, Making, random_config, settled_cluster


class Contradiction(Exception):
    """A run went against what should hold."""


def small_limits() -> contextlib.ExitStack:
    """Takes the limits down, until the stack is closed."""
    stack = contextlib.ExitStack()
    for module, limits in ((exchange, {"MOST_REQUESTS": 1}), (link, {"MOST_WAITING": 2, "MOST_EPOCH": 9}),
                           (index, {"MOST_RECORDS": 2, "MOST_NAMES": 4, "MOST_SEQUENCE": 40}),
                           (replica, {"MOST_PULLS": 2}), (version, {"MOST_COUNTERS": 3, "GREATEST": 6})):
        stack.enter_context(mock.patch.multiple(module, **limits))
    return stack


class Walk:
    """Random steps on a cluster."""

    def __init__(self, making: Making, cluster: Cluster, with_resets: bool = False):
        self.with_resets = with_resets
        self.random = making.random
        self.making = making
        self.cluster = cluster
        self.folders = sorted({folder for peer in cluster.peers.values() for folder in peer.replicas})
        self.devices = sorted(cluster.peers)
        self.edited = self.random.sample(NAMES, self.random.choice([1, 2, 3]))
        self.answers = Counter()

    def names(self, device: int, folder: str) -> list[str]:
        """Names that the device knows of, and others."""
        one = self.cluster.peers[device].replicas.get(folder)
        if one is None:
            return NAMES
        known = set(one.index.records) | set(one.store.nodes) | set(one.pulls)
        return sorted(known.union(*(view.records for view in one.views.values()))) or NAMES

    def place(self) -> tuple[int, str, str]:
        """A device, a folder that it most often shares, and a name."""
        device = self.random.choice(self.devices)
        shared = sorted(self.cluster.peers[device].replicas)
        folder = self.random.choice(shared if self.making.happens(0.98) else self.folders)
        return device, folder, self.random.choice(self.names(device, folder))

    def ends(self) -> tuple[int, int]:
        """Two devices, which most often have a link."""
        if self.cluster.links and self.making.happens(0.98):
            ends = list(self.random.choice(list(self.cluster.links)))
            self.random.shuffle(ends)
            return tuple(ends)
        return self.random.choice(self.devices), self.random.choice(self.devices)

    def shared_ends(self) -> tuple[int, int, str]:
        """Two devices, and a folder that they most often share."""
        device, other = self.ends()
        shared = self.cluster.peers[device].shared_with(other)
        return device, other, self.random.choice(shared if shared and self.making.happens(0.98) else self.folders)

    def any_quiet_step(self) -> Step:
        """A step that isn't local, at places taken at random."""
        kinds = [Scan, Connect, Lose, Begin, Deliver, Announce, StartPull, Ask, Finish, Restart]
        kind = self.random.choices(kinds, [3, 1, 0.2, 1, 1, 1, 1, 1, 1, 0.1])[0]
        if kind in (Scan, StartPull, Finish):
            return kind(*self.place())
        if kind in (Connect, Lose):
            return kind(*sorted(self.ends()))
        if kind in (Begin, Deliver):
            return kind(*self.ends())
        if kind is Announce:
            return Announce(*self.shared_ends())
        if kind is Ask:
            device, other, folder = self.shared_ends()
            return Ask(device, other, folder, self.random.choice(self.names(device, folder)))
        return Restart(self.random.choice(self.devices))

    def open_steps(self) -> Iterator[Step]:
        """Quiet steps for which there is something to do."""
        for (a, b), link in self.cluster.links.items():
            if not link.is_up:
                yield Connect(a, b)
                continue
            for device, other in ((a, b), (b, a)):
                peer = self.cluster.peers[device]
                if not peer.has_session(other, link):
                    yield Begin(device, other)
                    continue
                if link.on_its_way_to(device):
                    yield from [Deliver(device, other)] * 3
                for folder, cursor in peer.sessions[other].cursors.items():
                    one = peer.replicas[folder]
                    if cursor == "full" or cursor < one.index.max_sequence:
                        yield Announce(device, other, folder)
                    yield from [Ask(device, other, folder, name) for name in one.pulls
                                if exchange.next_request(one, peer.sessions[other], other, folder, name)]
        for device, peer in self.cluster.peers.items():
            for folder, one in peer.replicas.items():
                yield from [Finish(device, folder, name) for name in one.pulls]
                yield from [StartPull(device, folder, name) for name in self.names(device, folder)
                            if name not in one.pulls and one.wanted(name)]
                yield from [Scan(device, folder, name) for name in self.names(device, folder)
                            if not is_clean(one.store.nodes.get(name), one.own(name))]

    def quiet_step(self) -> Step:
        """A step that isn't local, and most often one for which there is something to do."""
        if self.with_resets and self.making.happens(0.03):
            return self.reset()
        steps = list(self.open_steps()) if self.making.happens(0.85) else []
        return self.random.choice(steps) if steps else self.any_quiet_step()

    def reset(self) -> Step:
        """A reset of some device, most often under an id above its own ones."""
        device = self.random.choice(self.devices)
        ids = [one.index.id for one in self.cluster.peers[device].replicas.values()]
        return Reset(device, max(ids) + self.random.choice([0, 1, 1, 2]))

    def refused_reset(self) -> Step:
        """A reset of some device under the greatest id of its own, so one that is refused."""
        device = self.random.choice(self.devices)
        return Reset(device, max(one.index.id for one in self.cluster.peers[device].replicas.values()))

    def step_back(self) -> Step:
        """A scan, an override or a revert where there is something to do, so that devices can come to agree."""
        device, folder, name = self.place()
        kinds = {FolderKind.SendOnly: Override, FolderKind.ReceiveOnly: Revert}
        one = self.cluster.peers[device].replicas.get(folder)
        return self.random.choice([Scan, kinds.get(one.kind, Scan) if one else Scan])(device, folder, name)

    def local_step(self) -> Step:
        """Someone changes a store, or asks for an override or revert; or the device scans."""
        device, folder, _ = self.place()
        name = self.random.choice(self.edited)
        kind = self.random.choices([Edit, Remove, Override, Revert, Scan], [4, 1, 1, 1, 5])[0]
        if kind is not Edit:
            return kind(device, folder, name)
        node = self.making.body()
        if node is None:
            return Remove(device, folder, name)
        seconds, nanoseconds = self.random.choice(TIMES)
        return Edit(device, folder, name, type(node)(node.kind, seconds, nanoseconds, node.data, node.target))

    def failing(self) -> int | None:
        """The place of the store call that fails in the next step, if any does."""
        return self.random.choice([1, 2, 3, 4]) if self.making.happens(0.2) else None

    def take(self, step: Step) -> Moved | Why:
        """Takes a step, some store call of which may fail; now and then looks that a refusal changed nothing."""
        before = copy.deepcopy(self.cluster) if self.making.happens(0.05) else None
        answer = self.cluster.apply(step, self.failing())
        self.answers[type(step).__name__, answer.name] += 1
        is_copy = isinstance(step, Finish) and answer == Why.StoreFault
        if before is not None and isinstance(answer, Why) and not is_copy and before != self.cluster:
            raise Contradiction("a refused step changed something", step, answer)
        return answer


def nodes_and_records(cluster: Cluster) -> tuple[dict, dict]:
    """All nodes, and all own records, by device, folder and name."""
    replicas = [(peer.number, folder, one) for peer in cluster.peers.values() for folder, one in peer.replicas.items()]
    return ({(device, folder, name): node for device, folder, one in replicas
             for name, node in one.store.nodes.items()},
            {(device, folder, name): record for device, folder, one in replicas
             for name, record in one.index.records.items()})


class Settled:
    """A cluster at a moment at which it was settled."""

    def __init__(self, cluster: Cluster, contents: dict):
        self.contents = contents
        self.stores = stores_of(cluster)
        self.records = set(nodes_and_records(cluster)[1])

    def check(self, cluster: Cluster, step: Step) -> None:
        """Looks that the stores are kept, the cut is settled at the same contents, and no own record is gone."""
        if stores_of(cluster) != self.stores:
            raise Contradiction("the stores weren't kept", step)
        if settled_contents(cluster) != self.contents:
            raise Contradiction("the cut isn't settled any more, or at other contents", step)
        if not self.records <= set(nodes_and_records(cluster)[1]):
            raise Contradiction("an own record is gone", step)


def run_from_settled(making: Making, answers: Counter) -> None:
    """A run of quiet steps from a settled cluster made at random; each reset in it is refused."""
    walk = Walk(making, settled_cluster(making))
    contents = settled_contents(walk.cluster)
    if contents is None:
        raise Contradiction("the cluster that was made isn't settled")
    settled = Settled(walk.cluster, contents)
    for _ in range(making.random.choice([20, 60, 100])):
        step = walk.refused_reset() if making.happens(0.03) else walk.quiet_step()
        walk.take(step)
        settled.check(walk.cluster, step)
    answers.update(walk.answers)


class Calm:
    """A cluster at a moment at which it was calm, and the devices that were reset by then or since."""

    def __init__(self, cluster: Cluster, contents: Contents, reset: set[int]):
        self.contents = contents
        self.reset = reset
        self.stores = stores_of(cluster)

    def check(self, cluster: Cluster, step: Step | None, answer: Moved | Why | None) -> None:
        """Looks that the stores are kept, and the cluster is calm for the same contents."""
        if isinstance(step, Reset) and answer == Moved.Changed:
            self.reset.add(step.device)
        if stores_of(cluster) != self.stores:
            raise Contradiction("the stores weren't kept", step)
        broken = broken_calm(cluster, self.contents, self.reset)
        if broken:
            raise Contradiction("the cluster isn't calm", broken, step, answer)


def run_with_resets(making: CalmMaking, answers: Counter, from_settled: bool) -> None:
    """A run of quiet steps and resets from a settled cluster made at random, or from a calm one."""
    if from_settled:
        cluster = settled_cluster(Making(making.random))
        contents = settled_contents(cluster)
    else:
        cluster, contents = calm_cluster(making)
    walk = Walk(making, cluster, with_resets=True)
    calm = Calm(cluster, contents, making.reset)
    calm.check(cluster, None, None)
    for _ in range(making.random.choice([40, 80, 120])):
        step = walk.quiet_step()
        calm.check(cluster, step, walk.take(step))
    answers.update(walk.answers)


def wrote_copy(cluster: Cluster, step: Step, before: tuple[dict, dict]) -> bool:
    """Whether this step put a node under a name beside its own."""
    return isinstance(step, Finish) and any(name != step.name for _, _, name
                                            in nodes_and_records(cluster)[0].keys() - before[0].keys())


def lost_nodes(cluster: Cluster, step: Step, before: tuple[dict, dict]) -> list[str]:
    """Names whose node this step took away or wrote over, though it wasn't clean against the own record."""
    if isinstance(step, Edit | Remove):
        return []
    nodes, records = before
    now = nodes_and_records(cluster)[0]
    return [place for place, node in nodes.items()
            if node != now.get(place) and not is_clean(node, records.get(place))]


def checked_step(walk: Walk, step: Step) -> Moved | Why:
    """Takes a step, and looks that all rules hold after it and no node was lost."""
    before = nodes_and_records(walk.cluster)
    answer = walk.take(step)
    if wrote_copy(walk.cluster, step, before):
        walk.answers["Finish", answer.name] -= 1
        walk.answers["Finish", answer.name + ", with a conflict copy"] += 1
    broken = rules.broken_rule(walk.cluster)
    if broken:
        raise Contradiction(broken, step, answer)
    if lost_nodes(walk.cluster, step, before):
        raise Contradiction("a node that wasn't scanned was lost", step, lost_nodes(walk.cluster, step, before))
    return answer


def run_from_empty(making: Making, answers: Counter) -> bool:
    """A run from the empty cluster; whether it came to a settled cut with a name."""
    walk = Walk(making, Cluster.new(random_config(making)), with_resets=making.happens(0.3))
    for _ in range(making.random.choice([20, 60, 120])):
        checked_step(walk, walk.local_step() if making.happens(0.3) else walk.quiet_step())
    settled, walk.with_resets = None, False
    for number in range(making.random.choice([100, 200, 300])):
        is_quiet = settled is not None or making.happens(0.7)
        step = walk.quiet_step() if is_quiet else walk.step_back()
        checked_step(walk, step)
        if settled:
            settled.check(walk.cluster, step)
        elif number % 10 == 9:
            contents = settled_contents(walk.cluster)
            settled = Settled(walk.cluster, contents) if contents else None
    answers.update(walk.answers)
    return settled is not None


def main() -> None:
    """Makes the runs, and tells how often each step answered what."""
    count = int(sys.argv[1]) if len(sys.argv) > 1 else 1000
    seed = int(sys.argv[2]) if len(sys.argv) > 2 else 1
    from_settled, with_resets, from_empty, agreed = Counter(), Counter(), Counter(), 0
    for number in range(seed, seed + count):
        with small_limits() if number % 2 else contextlib.nullcontext():
            try:
                run_from_settled(Making(random.Random(number)), from_settled)
                run_with_resets(CalmMaking(random.Random(number)), with_resets, from_settled=number % 4 < 2)
                agreed += run_from_empty(Making(random.Random(number)), from_empty)
            except Contradiction as found:
                sys.exit(f"run {number}: {found}")
    for title, answers in (("from settled clusters", from_settled),
                           ("with resets from settled and calm clusters", with_resets), ("from the empty cluster", from_empty)):
        print(f"{count} runs {title}, {sum(answers.values())} steps")
        for (step, answer), times in sorted(answers.items()):
            print(f"{times:9} {step} {answer}")
    print(f"{agreed} of the runs from the empty cluster came to a settled cut with names: no contradiction")


if __name__ == "__main__":
    main()
