"""The fifteen steps of a cluster, as values."""

from dataclasses import dataclass

from .record import Node, Value


@dataclass(frozen=True)
class Edit(Value):
    """Someone puts a node into a device's store."""

    device: int
    folder: str
    name: str
    node: Node


@dataclass(frozen=True)
class Remove(Value):
    """Someone takes a node out of a device's store."""

    device: int
    folder: str
    name: str


@dataclass(frozen=True)
class Scan(Value):
    """A device looks what its store holds under a name."""

    device: int
    folder: str
    name: str


@dataclass(frozen=True)
class Override(Value):
    """A device that only sends makes its own record the newest."""

    device: int
    folder: str
    name: str


@dataclass(frozen=True)
class Revert(Value):
    """A device that only receives takes its local change back."""

    device: int
    folder: str
    name: str


@dataclass(frozen=True)
class Connect(Value):
    """A link comes up."""

    a: int
    b: int


@dataclass(frozen=True)
class Lose(Value):
    """A link goes down."""

    a: int
    b: int


@dataclass(frozen=True)
class Begin(Value):
    """A device begins a session with the other one."""

    device: int
    other: int


@dataclass(frozen=True)
class Deliver(Value):
    """A device takes the first message on its way from the other one."""

    device: int
    other: int


@dataclass(frozen=True)
class Announce(Value):
    """A device sends the other one the next records of its index."""

    device: int
    other: int
    folder: str


@dataclass(frozen=True)
class StartPull(Value):
    """A device begins to take over the record that it wants."""

    device: int
    folder: str
    name: str


@dataclass(frozen=True)
class Ask(Value):
    """A device asks the other one for the next block of a pull."""

    device: int
    other: int
    folder: str
    name: str


@dataclass(frozen=True)
class Finish(Value):
    """A device takes the target of a pull over."""

    device: int
    folder: str
    name: str


@dataclass(frozen=True)
class Restart(Value):
    """A device starts again: its sessions, pulls and connections are gone."""

    device: int


@dataclass(frozen=True)
class Reset(Value):
    """A device begins all its indexes anew under this id, and forgets what it knew of others."""

    device: int
    id: int


LocalStep = Edit | Remove | Override | Revert
QuietStep = Scan | Connect | Lose | Begin | Deliver | Announce | StartPull | Ask | Finish | Restart | Reset
Step = LocalStep | QuietStep
