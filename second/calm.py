"""Calm cuts: what each name holds once a cut was settled, and goes on holding after steps that no user makes, index
resets among them. No certificate and no winner is asked for, since versions go on changing while contents stand."""

from collections.abc import Iterator
from dataclasses import replace

import verdict
from cluster.choice import FolderKind
from cluster.core import Cluster
from cluster.cut import cut_of, item_of
from cluster.record import Node, Record
from cluster.replica import Replica
from settled import Making, settled_cluster

Contents = dict[tuple[bytes, bytes], object]


def rules_of_name(kind: FolderKind, was_reset: bool, due, device: verdict.Device, name: bytes) -> Iterator:
    """What is asked at a name of a device that may have been reset, in a folder of this kind, where this content is
    due."""
    own, node = device.own.get(name), device.store.get(name)
    parts = (device.viewed, device.coming, device.pulls)
    foreign = [entry for part in parts for entry in part.get(name, ()) if not entry["invalid"]]
    all_due = all(verdict.content(entry) == due for entry in foreign)
    yield "the store holds what is due", verdict.content_of_node(node) == due
    if own is None:
        yield "an own record is there", due == "deleted" or was_reset
        yield "without an own record, each foreign one has what is due", all_due
        return
    yield "the own record has what is due", verdict.content(own) == due
    yield "the node is clean", verdict.is_clean(node, own)
    if own["invalid"]:
        yield "only a receive-only device has a local-only record", was_reset and kind == FolderKind.ReceiveOnly
        yield "beside a local-only record, each foreign one has what is due", all_due
    yield "each foreign record is harmless", all(
        verdict.content(entry) == due or verdict.is_below(entry["version"], own["version"]) for entry in foreign)


def broken_calm(cluster: Cluster, contents: Contents, reset: set[int]) -> tuple | None:
    """The first rule that doesn't hold, with folder, device and name, where these contents are due and only these devices
    were reset; None where the cluster is calm."""
    cut = verdict.Cut(cut_of(cluster))
    for folder, devices in cut.folders.items():
        names = cut.known(folder) | {name for one, name in contents if one == folder}
        for device in devices:
            kind = cluster.peers[device.number].replicas[folder.decode()].kind
            for name in sorted(names):
                if (folder, name) not in contents and name in device.known():
                    return "a name of which nothing is due has no trace", folder, device.number, name
                due = contents.get((folder, name), "deleted")
                for rule, holds in rules_of_name(kind, device.number in reset, due, device, name):
                    if not holds:
                        return rule, folder, device.number, name
    return None


class CalmMaking(Making):
    """A calm cluster that is being made: devices that were reset lack records, or have local-only ones."""

    def __init__(self, numbers):
        super().__init__(numbers)
        self.reset: set[int] = set()
        self.bodies: dict[int, dict[str, Node | None]] = {}

    def fill_own(self, replica: Replica, bodies: dict[str, Node | None], must_own: bool) -> None:
        """Gives a device its own records and nodes; one that was reset keeps only some of the records."""
        super().fill_own(replica, bodies, must_own)
        self.bodies[id(replica)] = bodies
        if self.happens(0.5):
            self.reset.add(replica.me)
        if replica.me not in self.reset:
            return
        for name, own in list(replica.index.records.items()):
            if self.happens(0.4):
                del replica.index.records[name]
            elif replica.kind == FolderKind.ReceiveOnly and self.happens(0.5):
                replica.index.records[name] = replace(own, invalid=True)

    def harmless(self, name, body, own, sequence, may_be_invalid=True) -> Record:
        """A record that may be known at a device with this own record: beside a local-only one, of the same body."""
        return super().harmless(name, body, None if own and own.invalid else own, sequence, may_be_invalid)


def calm_cluster(making: CalmMaking) -> tuple[Cluster, Contents]:
    """A calm cluster, and what is due of each name."""
    made = settled_cluster(making)
    contents = {}
    for peer in made.peers.values():
        for folder, one in peer.replicas.items():
            for name, body in making.bodies[id(one)].items():
                node = item_of(name, body) if body else None
                contents[folder.encode(), name.encode()] = verdict.content_of_node(node)
    return made, contents
