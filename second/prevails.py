"""What prevails, read a second time. Of a name in a folder all valid records that are known anywhere are one chain,
whose top some device has as its own, and nothing at any device keeps that from coming to all. A cut prevails if all its
names do."""

from collections.abc import Callable, Iterator
from dataclasses import dataclass

import verdict
from cluster.cut import cut_of
from verdict import content, is_at_most

Key = tuple[bytes, bytes]


class Sharer(verdict.Device):
    """What a device has of a folder, and what it does there."""

    def __init__(self, one):
        super().__init__(one)
        self.sends_only = one["kind"] == "send-only"

    def held(self, name: bytes) -> list[dict]:
        """The valid records of the name that it has as its own, or from elsewhere."""
        own = [self.own[name]] if name in self.own else []
        return [entry for entry in own + self.foreign(name) if not entry["invalid"]]

    def foreign(self, name: bytes) -> list[dict]:
        """The records of the name that it has from elsewhere."""
        return [entry for part in (self.viewed, self.coming, self.pulls) for entry in part.get(name, ())]

    def own_version(self, name: bytes) -> dict:
        """The own record's version; without a record it is empty."""
        return self.own[name]["version"] if name in self.own else {}

    def own_content(self, name: bytes):
        """The content that the own record tells; without a record nothing is there."""
        return content(self.own[name]) if name in self.own else "deleted"


@dataclass
class Name:
    """What is known of a name anywhere."""

    devices: list[Sharer]
    name: bytes

    @property
    def records(self) -> list[dict]:
        """All valid records of it, wherever they are."""
        return [entry for device in self.devices for entry in device.held(self.name)]

    def tops(self) -> list[dict]:
        """The own records that no record is beyond."""
        own = [device.own[self.name] for device in self.devices if self.name in device.own]
        return [one for one in own if not one["invalid"]
                and all(is_at_most(other["version"], one["version"]) for other in self.records)]

    def is_at(self, device: Sharer, top: dict) -> bool:
        """Whether the device's own record has the top's version, or the top is a deletion and it has no record."""
        if self.name not in device.own:
            return top["deleted"]
        return device.own_version(self.name) == top["version"]

    def is_at_top(self, device: Sharer) -> bool:
        """Whether it is at one of the tops."""
        return any(self.is_at(device, top) for top in self.tops())


def has_top(at: Name) -> bool:
    """Some device's own record is above all."""
    return bool(at.tops())


def is_in_line(at: Name) -> bool:
    """Of each two records one is at most the other."""
    versions = [entry["version"] for entry in at.records]
    return all(is_at_most(one, other) or is_at_most(other, one) for one in versions for other in versions)


def agrees(at: Name) -> bool:
    """Records of one version have one content."""
    return all(content(one) == content(other) for one in at.records for other in at.records
               if one["version"] == other["version"])


def each(holds: Callable[[Name, Sharer], bool]) -> Callable[[Name], bool]:
    """Whether this holds at each device."""
    return lambda at: all(holds(at, device) for device in at.devices)


def has_no_local_change(at: Name, device: Sharer) -> bool:
    """The own record isn't a local change."""
    return at.name not in device.own or not device.own[at.name]["invalid"]


def is_clean(at: Name, device: Sharer) -> bool:
    """A scan would leave the node alone."""
    return verdict.is_clean(device.store.get(at.name), device.own.get(at.name))


def has_own_content(at: Name, device: Sharer) -> bool:
    """The node has the content that the own record tells."""
    return verdict.content_of_node(device.store.get(at.name)) == device.own_content(at.name)


def takes_changes(at: Name, device: Sharer) -> bool:
    """A device that isn't at each top takes changes."""
    return not device.sends_only or all(at.is_at(device, top) for top in at.tops())


def counts_own(at: Name, device: Sharer) -> bool:
    """No record counts more of the device's own changes than its own record does."""
    counted = device.own_version(at.name).get(device.number, 0)
    return all(entry["version"].get(device.number, 0) <= counted for entry in at.records)


CONDITIONS = {
    "top": has_top,
    "chain": is_in_line,
    "agreement": agrees,
    "no local change": each(has_no_local_change),
    "clean": each(is_clean),
    "content": each(has_own_content),
    "takes changes": each(takes_changes),
    "own counter": each(counts_own),
}


def names_of(cluster) -> dict[Key, Name]:
    """Each known name of the cluster's cut, with what is known of it."""
    cut = verdict.Cut(cut_of(cluster), Sharer)
    return {(folder, name): Name(devices, name)
            for folder, devices in cut.folders.items() for name in cut.known(folder)}


def broken(cluster) -> Iterator[tuple[str, Key]]:
    """Each condition that doesn't hold, with the name; none where the cut prevails."""
    for key, at in names_of(cluster).items():
        yield from ((condition, key) for condition, holds in CONDITIONS.items() if not holds(at))
