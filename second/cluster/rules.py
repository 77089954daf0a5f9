"""What holds of every cluster that steps lead to from the empty one."""

from collections.abc import Iterator

from .choice import FolderKind
from .core import Cluster
from .exchange import MOST_REQUESTS, Peer, Session
from .index import MOST_NAMES, MOST_RECORDS, Index as OwnIndex, View
from .link import MOST_WAITING, Index, IndexUpdate, Link, Message
from .record import Record, blocks_of, is_name, is_node, is_well_formed
from .replica import MOST_PULLS, Replica


def is_gapless(view: View, index: OwnIndex) -> bool:
    """Whether a view of this very index has each of its records up to the view's sequence, no name that the index
    lacks, and of no name a greater sequence."""
    if view.id != index.id:
        return True
    has_all = all(view.records.get(record.name) == record
                  for record in index.records.values() if record.sequence <= view.sequence)
    return has_all and all(name in index.records and record.sequence <= index.records[name].sequence
                           for name, record in view.records.items())


def are_in_place(records: dict[str, Record]) -> bool:
    """Whether each record stands under its own name, and is well formed."""
    return all(name == record.name and is_well_formed(record) for name, record in records.items())


def are_numbered(records: dict[str, Record], greatest: int) -> bool:
    """Whether there are at most so many names as an index has, with different sequences from 1 to the greatest."""
    sequences = [record.sequence for record in records.values()]
    return (len(sequences) <= MOST_NAMES and len(set(sequences)) == len(sequences)
            and all(1 <= sequence <= greatest for sequence in sequences))


def rules_of_replica(cluster: Cluster, folder: str, replica: Replica) -> Iterator[tuple[str, bool]]:
    """What holds of a folder at one device."""
    index, pulls = replica.index, replica.pulls
    yield "own records stand under their names, well formed", are_in_place(index.records)
    yield "own records are numbered", are_numbered(index.records, index.max_sequence)
    yield ("only a receive only folder has local changes marked", replica.kind == FolderKind.ReceiveOnly
           or not any(record.invalid for record in index.records.values()))
    for other, view in replica.views.items():
        yield "viewed records stand under their names, well formed", are_in_place(view.records)
        yield "viewed records are numbered", are_numbered(view.records, view.sequence)
        yield "views are of other devices that share the folder", cluster.peers[other].shares(folder, replica.me)
        index = cluster.peers[other].replicas[folder].index
        yield "views are of no index that is still to come", view.id <= index.id
        yield "views have no gap", is_gapless(view, index)
        yield "a view at its index's point is that index", view.point != index.point or view.records == index.records
    yield "pulls stand under their names, well formed", are_in_place({name: one.target for name, one in pulls.items()})
    yield "no pull has an invalid target", not any(pull.target.invalid for pull in pulls.values())
    yield "pulls aren't too many", len(pulls) <= MOST_PULLS
    yield "received blocks are the target's", all(
        (blocks_of(data)[0].size, blocks_of(data)[0].hash)
        == (pull.target.blocks[place].size, pull.target.blocks[place].hash)
        for pull in pulls.values() for place, data in pull.received.items())
    yield "nodes fit their kinds", all(is_name(name) and is_node(node) for name, node in replica.store.nodes.items())


def rules_of_session(peer: Peer, other: int, session: Session, link: Link) -> Iterator[tuple[str, bool]]:
    """What holds of a session."""
    ids = [request.id for request in session.outstanding]
    yield "sessions name shared folders alone", all(peer.shares(folder, other) for folder in session.cursors)
    yield "cursors come with the other's configuration", session.is_configured or not session.cursors
    yield "cursors are inside the index", all(
        cursor == "full" or 0 <= cursor <= peer.replicas[folder].index.max_sequence
        for folder, cursor in session.cursors.items())
    yield "requests have different ids", len(set(ids)) == len(ids) <= MOST_REQUESTS
    yield "ids of requests were given out", all(1 <= one < session.next_id for one in ids)
    yield "sessions are of connections that were", session.epoch <= link.epoch


def rules_of_message(peer: Peer, other: int, message: Message) -> Iterator[tuple[str, bool]]:
    """What holds of a message on its way to a device."""
    if isinstance(message, Index | IndexUpdate):
        sequences = [record.sequence for record in message.records]
        names = {record.name: record for record in message.records}
        yield "index messages are of shared folders", peer.shares(message.folder, other)
        yield "sequences in a message rise", sequences == sorted(set(sequences)) and len(sequences) <= MOST_RECORDS
        yield "names in a message are different", len(names) == len(sequences)
        yield "sent records are well formed", are_in_place(names)


def all_rules(cluster: Cluster) -> Iterator[tuple[str, bool]]:
    """Each rule, and whether it holds, at each place."""
    for peer in cluster.peers.values():
        for folder, replica in peer.replicas.items():
            yield from rules_of_replica(cluster, folder, replica)
        for other, session in peer.sessions.items():
            link = cluster.ordered_link(min(peer.number, other), max(peer.number, other))
            yield from rules_of_session(peer, other, session, link)
    for (a, b), link in cluster.links.items():
        yield "nothing is on its way while a link is down", link.is_up or not (link.to_a or link.to_b)
        yield "so many messages are on their way", max(len(link.to_a), len(link.to_b)) <= MOST_WAITING
        for device, other in ((a, b), (b, a)):
            for message in link.on_its_way_to(device):
                yield from rules_of_message(cluster.peers[device], other, message)


def broken_rule(cluster: Cluster) -> str | None:
    """The first rule that doesn't hold, if there is one."""
    return next((rule for rule, holds in all_rules(cluster) if not holds), None)
