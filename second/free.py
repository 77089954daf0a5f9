"""Free peers: peers that keep to few rules, and choose at random wherever these leave a choice. They use less freedom than
the rules leave: they send only records above a cursor, and a copy has a name that is free.

- It takes a record over only where the record isn't invalid and isn't at most its own version; without an own record
  it takes no deletion over. Which one of these it takes is free, and its folder's kind is no matter. (A local-only own
  record binds it to nothing.)
- A pull that comes to its end is asked again. It may take its target over, or be dropped, or left for later.
- What it takes over gets any version that is at least the target's.
- It may keep a copy of the file that it replaces, under any other name that is free.
- A scan that finds a change raises its own counter by any number.
- It announces its own records above what it announced before, in batches of any length.

Links are lost at any time, as the other steps come. All else is as in `cluster/`.
"""

from dataclasses import dataclass, field
from random import Random

from cluster.index import Index
from cluster.record import Node, Record
from cluster.refusal import Moved, Why, refuse
from cluster.replica import Pull, Replica
from cluster.version import Version, all_greatest, bump, is_at_most, merge

COPIES = ["copy", "b", "d/x", "a.sync-conflict"]


@dataclass
class FreeIndex(Index):
    """An index that is announced in batches of any length."""

    random: Random = field(default_factory=Random, compare=False)

    def after(self, sequence: int) -> tuple[Record, ...]:
        """The first records above a sequence, as many as it likes."""
        records = super().after(sequence)
        return records[:self.random.randint(0, len(records))]


@dataclass
class FreeReplica(Replica):
    """A folder at a free peer."""

    random: Random = field(default_factory=Random, compare=False)

    def __post_init__(self):
        """Its index is one that is announced freely."""
        self.index = FreeIndex(self.index.id, random=self.random)

    # ---- what it may take over

    def known(self, name: str) -> list[Record]:
        """The records of the name that it knows and that aren't invalid."""
        records = [one.records[name] for one in (self.index, *self.views.values()) if name in one.records]
        return [record for record in records if not record.invalid]

    def may_want(self, record: Record) -> bool:
        """Whether the record may be taken over."""
        own = self.own(record.name)
        if own is None:
            return not record.deleted
        return own.invalid or not is_at_most(record.version, own.version)

    def wanted_ones(self, name: str) -> list[Record]:
        """The records of the name that may be taken over."""
        return [record for record in self.known(name) if self.may_want(record)]

    def any_of(self, records: list[Record]) -> Record | None:
        """One of these, if there is one."""
        return self.random.choice(records) if records else None

    def chosen(self, name: str) -> Record | None:
        """A record that it may take for the present one."""
        return self.any_of(self.known(name))

    def wanted(self, name: str) -> Record | None:
        """A record that it may take over."""
        return self.any_of(self.wanted_ones(name))

    # ---- pulling

    def start_pull(self, name: str) -> Moved:
        """Begins to take over a record that it may, without a block, in place of any pull of that name."""
        wanted = self.wanted(name)
        refuse(Why.NotNeeded, when=wanted is None)
        self.pulls[name] = Pull(wanted)
        return Moved.Changed

    def finish(self, name: str) -> Moved:
        """Takes the target of a pull over, or drops it, or leaves it for later."""
        refuse(Why.NotNeeded, when=name not in self.pulls or self.random.random() < 0.2)
        if self.random.random() < 0.2:
            del self.pulls[name]
            return Moved.Dropped
        return super().finish(name)

    def is_still_wanted(self, target: Record) -> bool:
        """Whether the target may be taken over."""
        return self.may_want(target)

    def adopted_version(self, target: Record) -> Version:
        """Any version that is at least the target's: often the target's own, or that and the own one merged."""
        more = tuple((device, self.random.randint(1, 4)) for device in sorted(self.random.sample([1, 2, 3, 7], 2)))
        return all_greatest(target.version, self.random.choice([(), (), self.own_version(target.name), more]))

    def conflict_copy(self, own: Record | None, target: Record, node: Node | None) -> tuple[str, Node] | None:
        """A copy of the node under any other name that is free, or none."""
        name = self.random.choice(COPIES)
        if node is None or name == target.name or self.random.random() < 0.5:
            return None
        refuse(Why.CopyExists, when=self.store.read(name) is not None)
        return name, node

    # ---- scanning

    def raised_version(self, name: str) -> Version:
        """The own version, whose counter of this device is raised by some number."""
        raised = bump(self.own_version(name), self.me)
        return merge(raised, ((self.me, dict(raised)[self.me] + self.random.choice([0, 0, 3])),))
