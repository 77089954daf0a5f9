"""Which record of a name a device takes for the present one, and whether it wants it."""

from enum import Enum

from .record import Record, same_content
from .version import is_at_most, is_below


class FolderKind(Enum):
    """What a device does with a folder."""

    SendReceive = "send-receive"
    SendOnly = "send-only"
    ReceiveOnly = "receive-only"


Candidate = tuple[int, Record]


def choose(me: int, candidates: list[Candidate]) -> Record | None:
    """The best of these records, each beside the device that has it: invalid ones and those strictly below another are
    passed over."""
    valid = [one for one in candidates if not one[1].invalid]
    left = [one for one in valid if not any(is_below(one[1].version, other.version) for _, other in valid)]

    def rank(one: Candidate):
        device, record = one
        return (record.deleted, (-record.modified_s, -record.modified_ns), record.modified_by, device != me, device)
    return min(left, key=rank)[1] if left else None


def is_needed(kind: FolderKind, own: Record | None, chosen: Record) -> bool:
    """Whether a device with this own record takes the chosen one over."""
    if own is None:
        return not chosen.deleted and kind != FolderKind.SendOnly
    if own.invalid:
        return same_content(chosen, own)
    return (not is_at_most(chosen.version, own.version)
            and (kind != FolderKind.SendOnly or same_content(chosen, own)))


def is_needed_on_any_kind(own: Record | None, chosen: Record) -> bool:
    """Whether it would be taken over in a folder that sends and receives, had the own record no local-only mark."""
    return not chosen.deleted if own is None else not is_at_most(chosen.version, own.version)
