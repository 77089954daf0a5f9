"""Version vectors: counters by short id, ids rising; a counter that is missing counts as 0."""

from .refusal import Why, refuse

Version = tuple[tuple[int, int], ...]

MOST_COUNTERS = 16
GREATEST = 2**63 - 1


def counter(version: Version, device: int) -> int:
    """The device's counter."""
    return dict(version).get(device, 0)


def is_at_most(version: Version, other: Version) -> bool:
    """Whether each counter of the one is at most that of the other."""
    return all(value <= counter(other, device) for device, value in version)


def is_below(version: Version, other: Version) -> bool:
    """Whether the one is at most the other, and the other not at most the one."""
    return is_at_most(version, other) and not is_at_most(other, version)


def are_concurrent(version: Version, other: Version) -> bool:
    """Whether neither is at most the other."""
    return not is_at_most(version, other) and not is_at_most(other, version)


def all_greatest(version: Version, other: Version) -> Version:
    """The greater of each counter, however many there are."""
    devices = {device for device, _ in version + other}
    return tuple((device, max(counter(version, device), counter(other, device))) for device in sorted(devices))


def merge(version: Version, other: Version) -> Version:
    """The greater of each counter; refused where that takes too many."""
    merged = all_greatest(version, other)
    refuse(Why.TooManyCounters, when=len(merged) > MOST_COUNTERS)
    return merged


def bump(version: Version, device: int) -> Version:
    """The version with 1 added to the device's counter; a full counter is refused first, then too many of them."""
    refuse(Why.CounterFull, when=counter(version, device) == GREATEST)
    return merge(version, ((device, counter(version, device) + 1),))
