"""One folder at one device: the steps that need no link."""

from dataclasses import dataclass, field, replace

from .choice import FolderKind, choose, is_needed, is_needed_on_any_kind
from .index import Index, View
from .record import (Kind, Node, Record, conflict_name, deletion, is_clean, is_name, record_of_node, same_content,
                     same_entry)
from .refusal import Moved, Why, refuse
from .store import Store
from .version import Version, all_greatest, are_concurrent, bump, is_at_most, merge

MOST_PULLS = 64


@dataclass
class Pull:
    """A record that is being taken over, with the bytes of each block received so far, by the block's place."""

    target: Record
    received: dict[int, bytes] = field(default_factory=dict)

    def is_complete(self) -> bool:
        """Whether each block was received."""
        return len(self.received) == len(self.target.blocks)

    def node(self) -> Node:
        """What the store is to hold once the target is taken over."""
        data = b"".join(self.received[place] for place in range(len(self.target.blocks)))
        return Node(self.target.kind, *self.target.time, data, self.target.target)


@dataclass
class Replica:
    """A device's own index of a folder, its views of the other devices that share it, its pulls and its store."""

    me: int
    kind: FolderKind
    index: Index
    views: dict[int, View]
    store: Store
    pulls: dict[str, Pull] = field(default_factory=dict)

    def own(self, name: str) -> Record | None:
        """The device's own record of that name."""
        return self.index.records.get(name)

    def own_version(self, name: str) -> Version:
        """The version of the own record, the empty one where there is none."""
        own = self.own(name)
        return own.version if own else ()

    def chosen(self, name: str) -> Record | None:
        """The best record of that name that the device knows."""
        known = [(self.me, self.index)] + sorted(self.views.items())
        return choose(self.me, [(device, one.records[name]) for device, one in known if name in one.records])

    def wanted(self, name: str) -> Record | None:
        """The record of that name that the device wants to take over."""
        chosen = self.chosen(name)
        return chosen if chosen and is_needed(self.kind, self.own(name), chosen) else None

    # ---- local changes

    def edit(self, name: str, node: Node) -> Moved:
        """Someone puts a node into the store."""
        self.store.write(name, node)
        return Moved.Changed

    def remove(self, name: str) -> Moved:
        """Someone takes a node out of the store."""
        refuse(Why.NothingToDo, when=self.store.read(name) is None)
        self.store.remove(name)
        return Moved.Changed

    # ---- scanning

    def scan(self, name: str) -> Moved:
        """Puts a record of what the store holds, unless it is clean."""
        node, own = self.look(name), self.own(name)
        if is_clean(node, own):
            return Moved.Unchanged
        is_local = self.kind == FolderKind.ReceiveOnly
        version = self.own_version(name) if is_local else self.raised_version(name)
        if node is None:
            self.index.put(deletion(name, own, self.me, version, invalid=is_local))
        else:
            self.index.put(record_of_node(name, node, self.me, version, invalid=is_local))
        return Moved.Changed

    def look(self, name: str) -> Node | None:
        """What a scan takes for the node of that name: what the store holds now."""
        return self.store.read(name)

    def raised_version(self, name: str) -> Version:
        """The version of a change that a scan found."""
        return bump(self.own_version(name), self.me)

    # ---- kinds

    def override(self, name: str) -> Moved:
        """Makes the own record of a send only folder the newest, against what others have."""
        refuse(Why.KindForbids, when=self.kind != FolderKind.SendOnly)
        own, chosen = self.own(name), self.chosen(name)
        refuse(Why.NothingToDo, when=not needs_override(own, chosen))
        version = bump(all_greatest(self.own_version(name), chosen.version), self.me)
        if own is None:
            self.index.put(deletion(name, chosen, self.me, version))
        else:
            self.index.put(replace(own, version=version, modified_by=self.me))
        return Moved.Changed

    def revert(self, name: str) -> Moved:
        """Takes a local change of a receive only folder back: the node goes, and what others have can be pulled."""
        refuse(Why.KindForbids, when=self.kind != FolderKind.ReceiveOnly)
        own = self.own(name)
        refuse(Why.NothingToDo, when=own is None or not own.invalid)
        node = self.store.read(name)
        refuse(Why.Unscanned, when=not is_clean(node, own))
        self.index.check_room(name)
        if node is not None:
            self.store.remove(name)
        self.index.put(deletion(name, own, self.me, version=()))
        return Moved.Changed

    # ---- pulling

    def start_pull(self, name: str) -> Moved:
        """Begins to take the wanted record over, without a block, in place of any pull of that name."""
        own, chosen = self.own(name), self.chosen(name)
        is_wanted = chosen is not None and is_needed(self.kind, own, chosen)
        refuse(Why.NotNeeded, when=chosen is None or not (is_wanted or is_needed_on_any_kind(own, chosen)))
        refuse(Why.KindForbids, when=not is_wanted)
        refuse(Why.PullsFull, when=name not in self.pulls and len(self.pulls) >= MOST_PULLS)
        self.pulls[name] = Pull(chosen)
        return Moved.Changed

    def finish(self, name: str) -> Moved:
        """Takes the target of a pull over, if it is wanted still."""
        refuse(Why.NotNeeded, when=name not in self.pulls)
        pull = self.pulls[name]
        target = pull.target
        if not self.is_still_wanted(target):
            del self.pulls[name]
            return Moved.Dropped
        own = self.own(name)
        is_adopted = same_content(target, own)
        refuse(Why.BlocksMissing, when=target.is_file and not is_adopted and not pull.is_complete())
        node = self.store.read(name)
        refuse(Why.Unscanned, when=not is_clean(node, own))
        copy = self.conflict_copy(own, target, node)
        version = self.adopted_version(target)
        self.index.check_room(name)
        if copy:
            self.store.write(*copy)
        if is_adopted:
            if node is not None and node.time != target.time:
                self.store.set_time(name, target.time)
        elif not target.deleted:
            self.store.write(name, pull.node())
        elif node is not None:
            self.store.remove(name)
        self.index.put(replace(target, version=version, invalid=False))
        del self.pulls[name]
        return Moved.Changed

    def is_still_wanted(self, target: Record) -> bool:
        """Whether a pull that comes to its end would be begun now, for the very same record."""
        return same_entry(target, self.wanted(target.name))

    def adopted_version(self, target: Record) -> Version:
        """The version of a target that is taken over: it and the own one merged."""
        return merge(target.version, self.own_version(target.name))

    def conflict_copy(self, own: Record | None, target: Record, node: Node | None) -> tuple[str, Node] | None:
        """The name and node of the copy to write before the target replaces a file that was changed apart from it: none
        where none is due, or where it is there already."""
        if not is_copy_due(own, target):
            return None
        name = conflict_name(own)
        refuse(Why.NameBad, when=not is_name(name))
        there = self.store.read(name)
        refuse(Why.CopyExists, when=there is not None and there != node)
        return (name, node) if there is None else None

    # ---- index resets

    def reset(self, index_id: int) -> None:
        """Begins the index anew under this id, and forgets what others have. The store stays."""
        self.index.begin_anew(index_id)
        for view in self.views.values():
            view.clear(0)
        self.pulls.clear()

    # ---- what others ask and answer

    def answer(self, name: str, offset: int, size: int) -> bytes | None:
        """The bytes of this range of a file, if the store has them."""
        node = self.store.read(name)
        if node is None or node.kind != Kind.File or offset + size > len(node.data):
            return None
        return node.data[offset:offset + size]


def needs_override(own: Record | None, chosen: Record | None) -> bool:
    """Whether others have something newer of another content, or something where the device has no record."""
    if chosen is None:
        return False
    if own is None:
        return not chosen.deleted
    return not is_at_most(chosen.version, own.version) and not same_content(chosen, own)


def is_copy_due(own: Record | None, target: Record) -> bool:
    """Whether taking the target over would lose a file that was changed apart from it."""
    return (own is not None and own.is_file and target.is_file and are_concurrent(target.version, own.version)
            and not same_content(target, own))
