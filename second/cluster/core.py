"""The cluster: devices, links, and what each step does to them."""

from collections.abc import Callable
from dataclasses import dataclass, field

from . import exchange
from .choice import FolderKind
from .exchange import Peer
from .index import Index, View
from .link import Link
from .refusal import Moved, Refused, Why, refuse
from .replica import Replica
from .step import (Announce, Ask, Begin, Connect, Deliver, Edit, Finish, Lose, Override, Remove, Reset, Restart, Revert,
                   Scan, StartPull, Step)
from .store import Faults, Store


@dataclass(frozen=True)
class Share:
    """How a device shares a folder."""

    device: int
    kind: FolderKind
    index_id: int


@dataclass(frozen=True)
class Config:
    """Who shares which folder, and which devices have a link, the smaller one first."""

    folders: dict[str, tuple[Share, ...]]
    links: tuple[tuple[int, int], ...] = ()


@dataclass
class Cluster:
    """Devices by number, and links by their ends."""

    peers: dict[int, Peer] = field(default_factory=dict)
    links: dict[tuple[int, int], Link] = field(default_factory=dict)

    @staticmethod
    def new(config: Config, replica: Callable[..., Replica] = Replica) -> "Cluster":
        """The cluster before any step: nothing is recorded, known or stored, and all links are down. Its folders go by
        the rules of `replica`."""
        made = Cluster()
        for folder, shares in config.folders.items():
            devices = {share.device for share in shares}
            for share in shares:
                peer = made.peers.setdefault(share.device, Peer(share.device, Faults()))
                views = {other: View() for other in sorted(devices - {share.device})}
                peer.replicas[folder] = replica(share.device, share.kind, Index(share.index_id), views,
                                                Store(peer.faults))
        made.links = {(a, b): Link(a, b) for a, b in config.links}
        return made

    def apply(self, step: Step, failing: int | None = None) -> Moved | Why:
        """Takes a step, whose store call of this place, from 1, fails; answers how it moved, or why it was refused. A
        refused step leaves all as it was, save the conflict copy of a finish whose last write failed."""
        for peer in self.peers.values():
            peer.faults.begin_step(failing)
        try:
            return self.take(step)
        except Refused as refused:
            return refused.why

    def take(self, step: Step) -> Moved:
        """Takes a step, or refuses it; that a device, folder or link isn't there comes before all else."""
        match step:
            case Edit(device, folder, name, node):
                return self.replica(device, folder).edit(name, node)
            case Remove(device, folder, name):
                return self.replica(device, folder).remove(name)
            case Scan(device, folder, name):
                return self.replica(device, folder).scan(name)
            case Override(device, folder, name):
                return self.replica(device, folder).override(name)
            case Revert(device, folder, name):
                return self.replica(device, folder).revert(name)
            case StartPull(device, folder, name):
                return self.replica(device, folder).start_pull(name)
            case Finish(device, folder, name):
                return self.replica(device, folder).finish(name)
            case Connect(a, b):
                self.ordered_link(a, b).connect()
                return Moved.Changed
            case Lose(a, b):
                self.ordered_link(a, b).lose()
                return Moved.Changed
            case Begin(device, other):
                return exchange.begin(*self.end(device, other), other)
            case Deliver(device, other):
                return exchange.deliver(*self.end(device, other), other)
            case Announce(device, other, folder):
                return exchange.announce(*self.shared_end(device, other, folder), other, folder)
            case Ask(device, other, folder, name):
                return exchange.ask(*self.shared_end(device, other, folder), other, folder, name)
            case Restart(device):
                return self.restart(device)
            case Reset(device, index_id):
                return self.reset(device, index_id)

    def peer(self, device: int) -> Peer:
        """The device of that number."""
        refuse(Why.NotShared, when=device not in self.peers)
        return self.peers[device]

    def replica(self, device: int, folder: str) -> Replica:
        """The folder at the device."""
        refuse(Why.NotShared, when=folder not in self.peer(device).replicas)
        return self.peers[device].replicas[folder]

    def ordered_link(self, a: int, b: int) -> Link:
        """The link with these ends, the smaller one first."""
        refuse(Why.NotShared, when=(a, b) not in self.links)
        return self.links[a, b]

    def end(self, device: int, other: int) -> tuple[Peer, Link]:
        """The device, and its link to the other one."""
        return self.peer(device), self.ordered_link(min(device, other), max(device, other))

    def shared_end(self, device: int, other: int, folder: str) -> tuple[Peer, Link]:
        """The device, and its link to the other one, who share the folder."""
        peer, link = self.end(device, other)
        refuse(Why.NotShared, when=not peer.shares(folder, other))
        return peer, link

    def restart(self, device: int) -> Moved:
        """Takes a device's sessions, pulls and connections away; its indexes, views and stores stay."""
        peer = self.peer(device)
        peer.sessions.clear()
        for replica in peer.replicas.values():
            replica.pulls.clear()
        self.lose_all_links(device)
        return Moved.Changed

    def reset(self, device: int, index_id: int) -> Moved:
        """Begins a device's indexes anew under an id above theirs; its stores stay."""
        peer = self.peer(device)
        refuse(Why.IndexIdOld, when=any(index_id <= replica.index.id for replica in peer.replicas.values()))
        peer.sessions.clear()
        for replica in peer.replicas.values():
            replica.reset(index_id)
        self.lose_all_links(device)
        return Moved.Changed

    def lose_all_links(self, device: int) -> None:
        """Ends each connection of the device."""
        for link in self.links.values():
            if device in (link.a, link.b) and link.is_up:
                link.lose()
