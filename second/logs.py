"""A cluster of the second reading whose devices and links each have a log, and what they are at a moment of a run."""

import copy
from dataclasses import dataclass, fields

from cluster.core import Cluster
from cluster.exchange import Peer
from cluster.link import Link
from cluster.refusal import Moved, Why
from cluster.step import Finish, Step
from fit import Log, Object, named, touches
from scenario import STEPS

WORDS = {make: word for word, (make, _) in STEPS.items()}


def told(step: Step) -> list:
    """A step as a scenario has it, but for an edit's node, which stands as text."""
    items = [getattr(step, item.name) for item in fields(step)]
    return [WORDS[type(step)], *(item if isinstance(item, int | str) else repr(item) for item in items)]


@dataclass
class Kept:
    """A device or a link with its log: what it was when the log began, and what it is."""

    base: Peer | Link
    now: Peer | Link
    log: Log


def queues(link: Link) -> dict[int, list]:
    """The messages on their way to each end."""
    return {link.a: list(link.to_a), link.b: list(link.to_b)}


class LoggedCluster:
    """A cluster, and what is logged of each device and link since its base."""

    def __init__(self, cluster: Cluster):
        self.cluster = cluster
        self.ticket = 0
        self.round = 0
        self.base = copy.deepcopy(self.objects())
        self.events: dict[Object, list[dict]] = {thing: [] for thing in self.base}

    def objects(self) -> dict[Object, Peer | Link]:
        """All devices and links, as they are."""
        return {(number,): peer for number, peer in self.cluster.peers.items()} | self.cluster.links

    def rebase(self, round: int) -> None:
        """What each object is becomes its base."""
        self.round = round
        self.base = copy.deepcopy(self.objects())
        self.events = {thing: [] for thing in self.base}

    def link_of(self, step: Step) -> Link | None:
        """The link over which the step is made, if it is one of a device over a link."""
        ends = named(told(step))
        return self.cluster.links.get(ends[1]) if len(ends) == 2 else None

    def apply(self, step: Step, failing: int | None = None) -> Moved | Why:
        """Takes a step under the next ticket. It is logged by all that it touches, if it was done, or kept a conflict
        copy and then failed."""
        self.ticket += 1
        link = self.link_of(step)
        before = queues(link) if link else {}
        stores = {folder: dict(one.store.nodes) for folder, one in self.replicas_of(step).items()}
        answer = self.cluster.apply(step, failing)
        kept = isinstance(step, Finish) and isinstance(answer, Why) and any(
            one.store.nodes != stores[folder] for folder, one in self.replicas_of(step).items())
        if isinstance(answer, Moved) or kept:
            self.tell(step, self.failed(step, failing), kept, traffic(step, link, before) if link else None)
        return answer

    def replicas_of(self, step: Step) -> dict:
        """The folders of the device that the step names first."""
        peer = self.cluster.peers.get(told(step)[1])
        return peer.replicas if peer else {}

    def failed(self, step: Step, failing: int | None) -> int | None:
        """The place of the call that failed, if so many were made."""
        peer = self.cluster.peers.get(told(step)[1])
        return failing if failing and peer and failing <= peer.faults.calls_of_step else None

    def tell(self, step: Step, failed: int | None, kept: bool, done: dict | None) -> None:
        """Logs the event in all that it touches."""
        event = {"ticket": self.ticket, "step": told(step), "failed": failed, "kept": kept, "traffic": done}
        for thing, events in self.events.items():
            if touches(event["step"], thing):
                events.append(event)

    def moment(self) -> dict[Object, Kept]:
        """Each object with its log, as they are."""
        return {thing: Kept(self.base[thing], copy.deepcopy(now), Log(thing, self.round, list(self.events[thing])))
                for thing, now in self.objects().items()}


def traffic(step: Step, link: Link, before: dict[int, list]) -> dict:
    """What the step did to the link: what it took, what it put, and whether the link was lost."""
    device, other = told(step)[1:3]
    after, taken = queues(link), None
    if told(step)[0] == "deliver":
        taken = repr(before[device][0])
    put = [repr(message) for message in after[other][len(before[other]):]]
    return {"epoch": link.epoch, "took": taken, "put": put[0] if put else None, "lost": not link.is_up}


def cluster_of(objects: dict[Object, Peer | Link]) -> Cluster:
    """The cluster that these devices and links are."""
    made = copy.deepcopy(objects)
    return Cluster({thing[0]: one for thing, one in made.items() if len(thing) == 1},
                   {thing: one for thing, one in made.items() if len(thing) == 2})


def merged(cut: dict[Object, Kept]) -> list[dict]:
    """Each event of the logs once, by rising ticket."""
    events = {event["ticket"]: event for kept in cut.values() for event in kept.log.events}
    return [events[ticket] for ticket in sorted(events)]
