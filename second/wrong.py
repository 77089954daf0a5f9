"""Wrong rules, one thing wrong in each. Under each one there is a settled cluster, and a list of quiet steps after
which a store isn't kept (test_teeth.py)."""

from dataclasses import dataclass, field

import verdict
from cluster.record import Node, Record
from cluster.refusal import Why, refuse
from cluster.replica import Replica


class PassesOldForeignWithoutOwn(verdict.Device):
    """A device of a checker that passes a foreign record over where its version is at most the winner's, though the
    device has no own record. Right is: it passes over only what is strictly below the device's own version."""

    def is_harmless(self, entry, winner):
        """Whether the record may be known at the device, where this record is the name's winner."""
        is_old = entry["name"] not in self.own and verdict.is_at_most(entry["version"], winner["version"])
        return is_old or super().is_harmless(entry, winner)


class EndsWithoutAskingAgain(Replica):
    """A pull that comes to its end doesn't ask whether its target is wanted still."""

    def is_still_wanted(self, target: Record) -> bool:
        """Always."""
        return True


class TakesVersionsUnmerged(Replica):
    """What is taken over has the version of the target alone, and what the own version counted is forgotten."""

    def adopted_version(self, target: Record):
        """The target's version as it is."""
        return target.version


class ResetKeepsViews(Replica):
    """A reset begins the index anew, but what the device knew of others stays."""

    def reset(self, index_id: int) -> None:
        """Begins the index anew; the views stay."""
        self.index.begin_anew(index_id)
        self.pulls.clear()


@dataclass
class LooksFirst(Replica):
    """The right rule of a scanner that first looks, then hashes without the device's lock, and then puts the record:
    where the store holds another node by then, the scan is refused. What it saw of a name is used up by one scan."""

    seen: dict[str, Node | None] = field(default_factory=dict)

    def look(self, name: str) -> Node | None:
        """The node that was seen, which must be there still; where none was seen, what is there."""
        node = super().look(name)
        refuse(Why.Stale, when=self.seen.pop(name, node) != node)
        return node


class TrustsAnOldLook(LooksFirst):
    """The record is made of the node that was seen, whatever the store holds by then."""

    def look(self, name: str) -> Node | None:
        """The node that was seen; where none was seen, what is there."""
        return self.seen.pop(name) if name in self.seen else super().look(name)
