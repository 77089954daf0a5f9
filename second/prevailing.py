"""Prevailing clusters made at random: of each name a chain of versions, and devices, views, pulls and messages anywhere
along it."""

from dataclasses import dataclass, replace

from cluster.choice import FolderKind
from cluster.record import Node, Record
from cluster.replica import Replica
from cluster.version import Version, bump, counter, is_below
from settled import DEVICES, TIMES, Making


@dataclass(frozen=True)
class Rung:
    """A version in a chain, with the content that has it."""

    version: Version
    body: Node | None


class PrevailingMaking(Making):
    """A prevailing cluster that is being made."""

    def __init__(self, numbers):
        super().__init__(numbers)
        self.chains: dict[str, list[Rung]] = {}

    def chain_of(self, name: str) -> list[Rung]:
        """The versions of the name, rising."""
        if name not in self.chains:
            changers = self.random.sample(DEVICES, 3)
            versions = [self.random.choice([(), bump((), self.random.choice(changers))])]
            for _ in range(self.random.choice([0, 1, 1, 2, 3])):
                versions.append(bump(versions[-1], self.random.choice(changers)))
            self.chains[name] = [Rung(version, self.body()) for version in versions]
        return self.chains[name]

    def at_rung(self, name: str, rung: Rung, sequence: int) -> Record:
        """A record of that version and content, at any time."""
        return self.record_at(name, rung.body, sequence, rung.version)

    def places(self, name: str, replica: Replica, must_own: bool) -> list[int | None]:
        """Where in the chain the device's own record may be: it counts all changes of the device. None is no record."""
        chain = self.chain_of(name)
        changes = counter(chain[-1].version, replica.me)
        places = [place for place, rung in enumerate(chain) if counter(rung.version, replica.me) == changes]
        if must_own or replica.kind == FolderKind.SendOnly:
            places = places[-1:]
        may_lack = not changes and not must_own and (replica.kind != FolderKind.SendOnly or not chain[-1].body)
        return [*places, None] if may_lack else places

    def fill_own(self, replica: Replica, bodies: dict[str, Node | None], must_own: bool) -> None:
        """Gives a device its own records, and nodes of their contents."""
        for sequence, name in enumerate(bodies, start=1):
            place = self.random.choice(self.places(name, replica, must_own))
            if place is None:
                continue
            rung = self.chain_of(name)[place]
            own = self.at_rung(name, rung, sequence)
            replica.index.records[name] = own
            if rung.body:
                seconds, nanoseconds = own.time if own.is_file else self.random.choice(TIMES)
                replica.store.nodes[name] = replace(rung.body, modified_s=seconds, modified_ns=nanoseconds)
        replica.index.max_sequence = len(bodies) + self.random.randint(0, 3)

    def harmless(self, name, body, own, sequence, may_be_invalid=True) -> Record:
        """A record from anywhere in the chain, or an invalid one."""
        if may_be_invalid and self.happens(0.1):
            return replace(self.record(name, self.body(), sequence), invalid=True)
        return self.at_rung(name, self.random.choice(self.chain_of(name)), sequence)

    def fill_foreign(self, replica: Replica, bodies: dict[str, Node | None], ids: dict[int, int]) -> None:
        """Gives a device views of others, and pulls, most of them of records that are above its own ones, with right
        blocks received, most often all."""
        super().fill_foreign(replica, bodies, ids)
        for name, pull in replica.pulls.items():
            above = [rung for rung in self.chain_of(name) if is_below(replica.own_version(name), rung.version)]
            if above and self.happens(0.7):
                pull.target = self.at_rung(name, self.random.choice(above), 1)
            received = range(len(pull.target.blocks)) if self.happens(0.8) else pull.received
            pull.received = {place: self.data_of(pull.target, place)
                             for place in received if place < len(pull.target.blocks)}
