"""Orderly peers: free peers that keep to a few rules more, which this project's peers keep, too.

- A pull writes its own name. A conflict copy is made beside it only where the own record and the target are concurrent,
  or the target counts more of the device's own changes than the own record does.
- What is taken over gets a version from the target's to that and the own one merged.
- Who sends only takes no other content over.
- A scan records only what isn't clean.

All else is free: which of the records that are news a device takes, in which order and when, and what it sends.
"""

from cluster.choice import FolderKind
from cluster.record import Node, Record, same_content
from cluster.version import Version, all_greatest, are_concurrent, counter
from free import FreeReplica


class OrderlyReplica(FreeReplica):
    """A folder at an orderly peer."""

    def may_want(self, record: Record) -> bool:
        """Whether the record may be taken over."""
        return super().may_want(record) and self.may_have_content_of(record)

    def may_have_content_of(self, record: Record) -> bool:
        """Whether the folder's kind lets it have that content."""
        own = self.own(record.name)
        has_content = same_content(record, own) if own else record.deleted
        return self.kind != FolderKind.SendOnly or has_content

    def adopted_version(self, target: Record) -> Version:
        """Any version from the target's to that and the own one merged."""
        merged = all_greatest(target.version, self.own_version(target.name))
        chosen = [(device, self.random.randint(counter(target.version, device), value)) for device, value in merged]
        return tuple((device, value) for device, value in chosen if value)

    def conflict_copy(self, own: Record | None, target: Record, node: Node | None) -> tuple[str, Node] | None:
        """A copy of the node under any other name that is free, or none, where one may be made."""
        return super().conflict_copy(own, target, node) if self.may_copy(target) else None

    def may_copy(self, target: Record) -> bool:
        """Whether a copy may be made where this target is taken over."""
        own = self.own_version(target.name)
        return are_concurrent(own, target.version) or counter(target.version, self.me) > counter(own, self.me)
