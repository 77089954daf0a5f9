"""Records of an index, nodes of a store, and what they have in common: content, being clean, the conflict name."""

import hashlib
from dataclasses import dataclass, replace
from enum import IntEnum
from functools import lru_cache

from .version import GREATEST, MOST_COUNTERS, Version

BLOCK_SIZE = 131072
BLOCK_SIZES = (131072, 262144, 524288, 1048576, 2097152, 4194304, 8388608, 16777216)
MOST_BYTES = 536870912
MOST_TARGET = 1024
MOST_NAME = 1024
MOST_NANOSECONDS = 999999999


class Kind(IntEnum):
    """What a record or a node is, by its type number on the wire."""

    File = 0
    Directory = 1
    Symlink = 4


class Value:
    """A value that is never changed, so that its copy is itself."""

    def __deepcopy__(self, memo):
        return self


@dataclass(frozen=True)
class Block(Value):
    """A piece of a file."""

    offset: int
    size: int
    hash: bytes


@dataclass(frozen=True)
class Node(Value):
    """What a store holds under a name."""

    kind: Kind
    modified_s: int
    modified_ns: int = 0
    data: bytes = b""
    target: str = ""

    @property
    def time(self) -> tuple[int, int]:
        """When it was modified: seconds, nanoseconds."""
        return self.modified_s, self.modified_ns


@dataclass(frozen=True)
class Record(Value):
    """What an index says of a name."""

    name: str
    kind: Kind
    modified_s: int
    modified_by: int
    version: Version
    sequence: int = 0
    modified_ns: int = 0
    deleted: bool = False
    invalid: bool = False
    size: int = 0
    block_size: int = 0
    blocks: tuple[Block, ...] = ()
    target: str = ""

    @property
    def time(self) -> tuple[int, int]:
        """When it was modified: seconds, nanoseconds."""
        return self.modified_s, self.modified_ns

    @property
    def is_file(self) -> bool:
        """Whether it tells of a file that isn't deleted."""
        return self.kind == Kind.File and not self.deleted


def block_size_of(length: int) -> int:
    """The bytes in each block but the last of a file of this length."""
    for size in BLOCK_SIZES:
        if length < 2000 * size:
            return size
    return BLOCK_SIZES[-1]


@lru_cache(maxsize=4096)
def blocks_of(data: bytes) -> tuple[Block, ...]:
    """The block list of a file of these bytes: one empty block where there are none."""
    whole = block_size_of(len(data))
    offsets = range(0, len(data), whole) or [0]
    pieces = [(offset, data[offset:offset + whole]) for offset in offsets]
    return tuple(Block(offset, len(piece), hashlib.sha256(piece).digest()) for offset, piece in pieces)


def content(record: Record):
    """What the record says stands under its name: nothing, or its kind with its blocks or its target."""
    return ("deleted",) if record.deleted else (record.kind, record.blocks, record.target)


def content_of_node(node: Node | None):
    """What stands in a store: nothing, or the node's kind with the blocks of its bytes or its target."""
    if node is None:
        return ("deleted",)
    return node.kind, blocks_of(node.data) if node.kind == Kind.File else (), node.target


def same_content(record: Record, other: Record | None) -> bool:
    """Whether there is another record, and it has this one's content."""
    return other is not None and content(record) == content(other)


def same_entry(record: Record, other: Record | None) -> bool:
    """Whether there is another record, equal in all fields but the sequence."""
    return other is not None and replace(record, sequence=0) == replace(other, sequence=0)


def is_clean(node: Node | None, own: Record | None) -> bool:
    """Whether the scanner sees no change: what it finds under a name is what the own record says."""
    if node is None or own is None or own.deleted:
        return node is None and (own is None or own.deleted)
    if node.kind != own.kind:
        return False
    if node.kind == Kind.File:
        return len(node.data) == own.size and node.time == own.time
    return node.kind == Kind.Directory or node.target == own.target


def record_of_node(name: str, node: Node, device: int, version: Version, invalid: bool) -> Record:
    """The record that this device's scan makes of a node."""
    is_file = node.kind == Kind.File
    return Record(name, node.kind, node.modified_s, device, version, modified_ns=node.modified_ns, invalid=invalid,
                  size=len(node.data), block_size=block_size_of(len(node.data)) if is_file else 0,
                  blocks=blocks_of(node.data) if is_file else (), target=node.target)


def deletion(name: str, of: Record, device: int, version: Version, invalid: bool = False) -> Record:
    """The deletion of what a record tells of, with that record's kind and time."""
    return Record(name, of.kind, of.modified_s, device, version, modified_ns=of.modified_ns, deleted=True,
                  invalid=invalid)


def conflict_name(losing: Record) -> str:
    """The name for a copy of what the losing record tells of: its own, with time and device before the extension."""
    start = losing.name.rfind("/") + 1
    dot = losing.name.rfind(".", start)
    end = len(losing.name) if dot in (-1, start) else dot
    mark = f".sync-conflict-{losing.modified_s}-{losing.modified_by:016x}"
    return losing.name[:end] + mark + losing.name[end:]


def is_name(name: str) -> bool:
    """Whether this is a name: 1 to 1024 bytes, parts between slashes that are neither empty nor `.` nor `..`."""
    return 1 <= len(name.encode()) <= MOST_NAME and "\0" not in name and not {"", ".", ".."} & set(name.split("/"))


def is_target(target: str) -> bool:
    """Whether a symlink can have this target."""
    return 1 <= len(target.encode()) <= MOST_TARGET and "\0" not in target


def is_version(version: Version) -> bool:
    """Whether ids rise from 1, values are 1 or more, and there are at most 16 counters."""
    devices = [device for device, _ in version]
    return (devices == sorted(set(devices)) and all(device >= 1 for device in devices)
            and all(1 <= value <= GREATEST for _, value in version) and len(version) <= MOST_COUNTERS)


def cut_whole(record: Record) -> bool:
    """Whether a file's blocks cut its size from the front, each full but the last."""
    whole = block_size_of(record.size)
    if not 0 <= record.size <= MOST_BYTES or record.block_size != whole:
        return False
    offsets = list(range(0, record.size, whole)) or [0]
    sizes = [min(whole, record.size - offset) for offset in offsets]
    is_empty_right = record.size > 0 or record.blocks == blocks_of(b"")
    return [(block.offset, block.size) for block in record.blocks] == list(zip(offsets, sizes)) and is_empty_right


def is_well_formed(record: Record) -> bool:
    """Whether the record keeps the rules for its kind."""
    if not (is_name(record.name) and is_version(record.version) and 0 <= record.modified_ns <= MOST_NANOSECONDS):
        return False
    if record.is_file:
        return cut_whole(record) and not record.target
    has_target = record.kind == Kind.Symlink and not record.deleted
    return (not record.size and not record.block_size and not record.blocks
            and (is_target(record.target) if has_target else not record.target))


def is_node(node: Node) -> bool:
    """Whether the node has bytes and a target as its kind asks."""
    return ((node.kind == Kind.File or not node.data) and len(node.data) <= MOST_BYTES
            and 0 <= node.modified_ns <= MOST_NANOSECONDS
            and (is_target(node.target) if node.kind == Kind.Symlink else not node.target))
