"""What the worked examples share: small clusters, and steps with the answers that they should give."""

import copy
import unittest
from dataclasses import replace

from cluster.choice import FolderKind
from cluster.core import Cluster, Config, Share
from cluster.cut import first_fault
from cluster.index import View
from cluster.record import Kind, Node, Record, record_of_node
from cluster.refusal import Moved, Why
from cluster.replica import Replica
from cluster.step import Announce, Ask, Begin, Connect, Deliver, StartPull

CHANGED, UNCHANGED, DROPPED, LOST = Moved.Changed, Moved.Unchanged, Moved.Dropped, Moved.LinkLost
BOTH, SEND, RECEIVE = FolderKind.SendReceive, FolderKind.SendOnly, FolderKind.ReceiveOnly
DOCS = "docs"


def text(content: str, seconds: int = 1000) -> Node:
    """A file's node."""
    return Node(Kind.File, seconds, data=content.encode())


def entry(name: str, node: Node, by: int, version: tuple, sequence: int = 0, invalid: bool = False) -> Record:
    """The record of a node."""
    return replace(record_of_node(name, node, by, version, invalid), sequence=sequence)


def empty_cluster(*kinds: FolderKind, replica: type[Replica] = Replica) -> Cluster:
    """Devices 1, 2 and so on that share one folder in these kinds, by these rules, with a link between each two."""
    devices = range(1, len(kinds) + 1)
    shares = tuple(Share(device, kind, 10 + device) for device, kind in zip(devices, kinds))
    return Cluster.new(Config({DOCS: shares}, tuple((a, b) for a in devices for b in devices if a < b)), replica)


def docs(cluster: Cluster, device: int):
    """The folder at the device."""
    return cluster.peers[device].replicas[DOCS]


def put(cluster: Cluster, device: int, record: Record, node: Node | None) -> None:
    """Gives a device a record and a node, as if it had them from before."""
    docs(cluster, device).index.put(record)
    if node:
        docs(cluster, device).store.nodes[record.name] = node


def see(cluster: Cluster, device: int, other: int) -> None:
    """Makes the device's view of the other one the other's whole index."""
    index = docs(cluster, other).index
    docs(cluster, device).views[other] = View(index.id, index.max_sequence, dict(index.records))


def one_file_on_both(*kinds: FolderKind) -> Cluster:
    """Two devices with the same record of `hello`, neither of which knows of the other's."""
    made = empty_cluster(*(kinds or (BOTH, BOTH)))
    for device in (1, 2):
        put(made, device, entry("hello", text("hello"), 1, ((1, 1),)), text("hello"))
    return made


class StepTest(unittest.TestCase):
    """Steps are taken one after the other, each with its answer."""

    def answers(self, cluster: Cluster, *steps) -> None:
        """Takes steps; behind each one stands its answer, where that isn't Changed."""
        for one, following in zip(steps, (*steps[1:], CHANGED)):
            if not isinstance(one, Moved | Why):
                expected = following if isinstance(following, Moved | Why) else CHANGED
                self.assertEqual(cluster.apply(one), expected, one)

    def refuses(self, cluster: Cluster, why: Why, step, failing: int | None = None) -> None:
        """A step is refused for this cause, and changes nothing."""
        before = copy.deepcopy(cluster)
        self.assertEqual(cluster.apply(step, failing), why, step)
        self.assertEqual(cluster, before, step)

    def meet(self, cluster: Cluster, a: int, b: int) -> None:
        """Connects two devices that then know each other's indexes."""
        self.answers(cluster, Connect(a, b), Begin(a, b), Begin(b, a), Deliver(b, a), Deliver(a, b))
        self.tell(cluster, a, b)
        self.tell(cluster, b, a)

    def tell(self, cluster: Cluster, device: int, other: int) -> None:
        """The device tells the other one all that is new in its index."""
        while cluster.apply(Announce(device, other, DOCS)) == CHANGED:
            self.answers(cluster, Deliver(other, device))

    def fetch(self, cluster: Cluster, device: int, other: int, name: str) -> None:
        """Starts a pull and receives its blocks from the other device."""
        self.answers(cluster, StartPull(device, DOCS, name))
        while cluster.apply(Ask(device, other, DOCS, name)) == CHANGED:
            self.answers(cluster, Deliver(other, device), Deliver(device, other))

    def verdict(self, cluster: Cluster):
        """Why the cut isn't settled, in the words of a report; `settled` where it is."""
        fault = first_fault(cluster)
        if fault is None:
            return "settled"
        reason, folder, name, device = fault
        place = "" if device is None else f" on {device}"
        return f"not settled: {reason} {folder.decode()} {name.decode()}{place}"
