"""Settled clusters made at random, far from all that a run would lead to: old versions in views, pulls and messages,
times and versions that differ where contents are the same, sessions and received blocks without sense."""

import random
from collections.abc import Callable
from dataclasses import dataclass, replace

from cluster.choice import FolderKind
from cluster.core import Cluster, Config, Share
from cluster.exchange import Session
from cluster.index import View
from cluster.link import Announced, ClusterConfig, Index, IndexUpdate, Link, Message, Request, Response
from cluster.record import BLOCK_SIZE, Kind, Node, Record, deletion, record_of_node
from cluster.replica import Pull, Replica
from cluster.version import Version, is_below

NAMES = ["a.txt", "a.sync-conflict-1000-0000000000000001.txt", "b", "d/x", "l", "\u00e9"]
DATA = [b"", b"hello", b"hallo", b"abc", bytes(BLOCK_SIZE) + b"\1"]
DEVICES = [1, 2, 3, 7, 2**64 - 1]
TIMES = [(1000, 0), (1000, 1), (900, 0), (-5, 0)]
ODD_POINTS = [(0, 0), (11, 0), (11, 1), (99, 5), (12, 2)]


@dataclass
class Making:
    """A settled cluster that is being made, by the random numbers that it takes."""

    random: random.Random

    def happens(self, share: float) -> bool:
        """Whether something happens that does in this share of all cases."""
        return self.random.random() < share

    def some(self, items: list) -> list:
        """Some of these, in any order."""
        return self.random.sample(items, self.random.randint(0, len(items)))

    def version(self) -> Version:
        """A version of few counters."""
        return tuple((device, self.random.randint(1, 3)) for device in sorted(self.some([1, 2, 3, 7])))

    def body(self) -> Node | None:
        """A node at no particular time, or nothing."""
        kind = self.random.choices([None, Kind.File, Kind.Directory, Kind.Symlink], [2, 5, 1, 1])[0]
        if kind is None:
            return None
        data = self.random.choices(DATA, [2, 4, 4, 4, 1])[0] if kind == Kind.File else b""
        return Node(kind, 0, data=data, target=self.random.choice("xy") if kind == Kind.Symlink else "")

    def record(self, name: str, body: Node | None, sequence: int) -> Record:
        """A record of that body, at any time and version."""
        return self.record_at(name, body, sequence, self.version())

    def own_record(self, name: str, body: Node | None, sequence: int) -> Record:
        """A record that a device has of that body itself."""
        return self.record(name, body, sequence)

    def record_at(self, name: str, body: Node | None, sequence: int, version: Version) -> Record:
        """A record of that body at this version, at any time."""
        seconds, nanoseconds = self.random.choice(TIMES)
        node = body or Node(self.random.choice(list(Kind)), 0, target="x")
        node = replace(node, modified_s=seconds, modified_ns=nanoseconds)
        made = record_of_node(name, node, self.random.choice(DEVICES), version, invalid=False)
        made = made if body else deletion(name, made, made.modified_by, made.version)
        return replace(made, sequence=sequence)

    def harmless(self, name: str, body: Node | None, own: Record | None, sequence: int, may_be_invalid=True) -> Record:
        """A record that may be known at a device with this own record, where that body is settled."""
        if may_be_invalid and self.happens(0.1):
            return replace(self.record(name, self.body(), sequence), invalid=True)
        for _ in range(4 if own else 0):
            old = self.record(name, self.body(), sequence)
            if is_below(old.version, own.version):
                return old
        return self.record(name, body, sequence)

    def records(self, bodies: dict[str, Node | None], replica: Replica, greatest: int) -> list[Record]:
        """Harmless records of some names, their sequences rising."""
        names = self.some(list(bodies))
        sequences = sorted(self.random.sample(range(1, greatest + len(names) + 1), len(names)))
        return [self.harmless(name, bodies[name], replica.own(name), place) for name, place in zip(names, sequences)]

    def fill_own(self, replica: Replica, bodies: dict[str, Node | None], must_own: bool) -> None:
        """Gives a device its own records and nodes."""
        for place, (name, body) in enumerate(bodies.items()):
            if body or must_own or self.happens(0.5):
                own = self.own_record(name, body, place + 1)
                replica.index.records[name] = own
                if body:
                    seconds, nanoseconds = own.time if body.kind == Kind.File else self.random.choice(TIMES)
                    replica.store.nodes[name] = replace(body, modified_s=seconds, modified_ns=nanoseconds)
        replica.index.max_sequence = len(bodies) + self.random.randint(0, 3)

    def fill_foreign(self, replica: Replica, bodies: dict[str, Node | None], ids: dict[int, int]) -> None:
        """Gives a device views of others, and pulls."""
        for other in replica.views:
            records = self.records(bodies, replica, 5)
            greatest = (records[-1].sequence if records else 0) + self.random.randint(0, 2)
            replica.views[other] = View(self.random.choice([0, ids[other], ids[other], 99]), greatest,
                                        {record.name: record for record in records})
        for name in self.some(list(bodies)):
            target = self.harmless(name, bodies[name], replica.own(name), 1, may_be_invalid=False)
            received = {place: bytes(block.size) if self.happens(0.2) else self.data_of(target, place)
                        for place, block in enumerate(target.blocks) if self.happens(0.7)}
            replica.pulls[name] = Pull(target, received)

    def data_of(self, target: Record, place: int) -> bytes:
        """The bytes of a block of the target."""
        whole = next(data for data in DATA if record_of_node("n", Node(Kind.File, 0, data=data), 1, (), False).blocks
                     == target.blocks)
        return whole[place * BLOCK_SIZE:(place + 1) * BLOCK_SIZE]

    def fill_link(self, cluster: Cluster, link: Link, bodies: dict[str, dict[str, Node | None]]) -> None:
        """Puts messages on their way, and gives both ends sessions."""
        link.is_up, link.epoch = self.happens(0.8), self.random.randint(1, 3)
        for device, other in ((link.a, link.b), (link.b, link.a)):
            peer = cluster.peers[device]
            shared = peer.shared_with(other)
            if link.is_up:
                link.on_its_way_to(device).extend(
                    self.message(cluster, device, other, bodies) for _ in range(self.random.choice([0, 0, 1, 2, 4])))
            if self.happens(0.8):
                is_configured = self.happens(0.8)
                session = Session(link.epoch if self.happens(0.8) else link.epoch - 1, is_configured)
                session.next_id = self.random.choice([1, 5])
                if is_configured:
                    session.cursors = {folder: self.random.choice(["full", 0, 1, 2, 3]) for folder in self.some(shared)}
                session.outstanding = [self.request(cluster, device, folder, bodies, place)
                                       for place, folder in enumerate(self.some(shared), start=1)]
                peer.sessions[other] = session

    def message(self, cluster: Cluster, device: int, other: int, bodies) -> Message:
        """A message on its way to a device; of folders that aren't shared it may tell anything."""
        shared = cluster.peers[device].shared_with(other)
        folder = self.random.choice(shared if shared and self.happens(0.95) else list(bodies))
        kind = self.random.choice([Index, IndexUpdate, IndexUpdate, ClusterConfig, Request, Response])
        if kind in (Index, IndexUpdate):
            if folder in shared:
                return kind(folder, tuple(self.records(bodies[folder], cluster.peers[device].replicas[folder], 9)))
            return kind(folder, tuple(self.record(name, self.body(), 1) for name in NAMES[:1]))
        if kind == ClusterConfig:
            points = [(one, self.random.choice(ODD_POINTS[1:]), self.random.choice(ODD_POINTS))
                      for one in self.some(shared)]
            return ClusterConfig(tuple(Announced(*one) for one in points))
        if kind == Request:
            return self.request(cluster, device, folder, bodies, 1)
        return Response(self.random.randint(1, 3), self.random.choice([0, 0, 2]), self.random.choice(DATA[:4]))

    def request(self, cluster: Cluster, device: int, folder: str, bodies, number: int) -> Request:
        """A request for the first block of some name."""
        name = self.random.choice(list(bodies[folder]))
        record = self.record(name, self.random.choice([bodies[folder][name], self.body()]), 1)
        if not record.blocks:
            return Request(number, folder, name, 0, 5, bytes(32))
        return Request(number, folder, name, 0, record.blocks[0].size, record.blocks[0].hash)


def random_config(making: Making) -> Config:
    """Some folders on some devices, and links between some of them."""
    folders = {}
    for folder in making.random.sample(["docs", "Docs", "a-b"], making.random.choice([1, 1, 2, 3])):
        devices = making.random.sample(DEVICES, making.random.choice([1, 2, 2, 2, 3, 3, 3, 4]))
        folders[folder] = tuple(Share(device, kind, making.random.choice([11, 12, 13])) for device, kind in
                                zip(devices, making.random.choices(list(FolderKind), k=len(devices))))
    devices = sorted({share.device for shares in folders.values() for share in shares})
    links = tuple((a, b) for a in devices for b in devices if a < b and making.happens(0.8))
    return Config(folders, links)


def settled_cluster(making: Making, replica: Callable[..., Replica] = Replica) -> Cluster:
    """A settled cluster, whose folders go by these rules."""
    config = random_config(making)
    made = Cluster.new(config, replica)
    bodies = {folder: {name: making.body() for name in making.random.sample(NAMES, making.random.randint(1, 4))}
              for folder in config.folders}
    for folder, shares in config.folders.items():
        owner = making.random.choice(shares).device
        for share in shares:
            making.fill_own(made.peers[share.device].replicas[folder], bodies[folder], share.device == owner)
        for share in shares:
            ids = {one.device: one.index_id for one in shares}
            making.fill_foreign(made.peers[share.device].replicas[folder], bodies[folder], ids)
    for link in made.links.values():
        making.fill_link(made, link, bodies)
    return made
