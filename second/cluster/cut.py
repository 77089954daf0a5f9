"""The cut of a cluster, as reading.py reads one from a document; its list of winners, and what was kept since another
cluster."""

import verdict

from .core import Cluster
from .link import Index, IndexUpdate, Link
from .record import Node, Record
from .replica import Replica


class NoWinner(Exception):
    """A name is known of which no device has a valid record."""

    def __init__(self, folder: bytes, name: bytes):
        super().__init__(folder, name)
        self.folder = folder
        self.name = name


def entry_of(record: Record) -> dict:
    """The record as the other reading has it."""
    return {"name": record.name.encode(), "kind": int(record.kind), "deleted": record.deleted,
            "invalid": record.invalid, "seconds": record.modified_s, "nanoseconds": record.modified_ns,
            "modified_by": record.modified_by, "version": dict(record.version), "sequence": record.sequence,
            "size": record.size, "block_size": record.block_size, "hashes": [block.hash for block in record.blocks],
            "target": record.target.encode()}


def item_of(name: str, node: Node) -> dict:
    """The node as the other reading has it."""
    return {"name": name.encode(), "kind": int(node.kind), "seconds": node.modified_s,
            "nanoseconds": node.modified_ns, "bytes": node.data, "target": node.target.encode()}


def share_of(replica: Replica) -> dict:
    """What a device has of a folder."""
    views = [{"of": other, "index_id": view.id, "max": view.sequence,
              "records": list(map(entry_of, view.records.values()))} for other, view in replica.views.items()]
    return {"device": replica.me, "kind": replica.kind.value, "index_id": replica.index.id,
            "max": replica.index.max_sequence, "own": list(map(entry_of, replica.index.records.values())),
            "store": [item_of(name, node) for name, node in replica.store.nodes.items()],
            "views": views, "pulls": [entry_of(pull.target) for pull in replica.pulls.values()]}


def flights_to(cluster: Cluster, link: Link, device: int) -> list[dict]:
    """The index messages on their way to one end, of folders that both ends share."""
    other = link.a + link.b - device
    return [{"folder": message.folder.encode(), "records": list(map(entry_of, message.records))}
            for message in link.on_its_way_to(device)
            if isinstance(message, Index | IndexUpdate) and cluster.peers[device].shares(message.folder, other)]


def cut_of(cluster: Cluster) -> dict:
    """The cut: sessions, received blocks and all other messages are left out."""
    folders = sorted({folder for peer in cluster.peers.values() for folder in peer.replicas})
    sharing = {folder: [peer.replicas[folder] for _, peer in sorted(cluster.peers.items()) if folder in peer.replicas]
               for folder in folders}
    links = [{"a": link.a, "b": link.b, "up": link.is_up, "epoch": link.epoch,
              "to_a": flights_to(cluster, link, link.a), "to_b": flights_to(cluster, link, link.b)}
             for link in cluster.links.values()]
    return {"folders": [{"folder": folder.encode(), "shares": list(map(share_of, sharing[folder]))}
                        for folder in folders], "links": links}


def certify_part(cut: dict) -> tuple[list[dict], list[tuple[bytes, bytes]]]:
    """The winners of the known names that have one, rising by folder and name, and the names that have none, rising too."""
    tables = verdict.Cut(cut)
    rows, without = [], []
    for folder in tables.folders:
        for name in sorted(tables.known(folder)):
            winner = tables.winner(folder, name)
            if winner is None:
                without.append((folder, name))
            else:
                rows.append({"folder": folder, "device": winner[0], "record": winner[1]})
    return rows, without


def certify(cut: dict) -> list[dict]:
    """The list of winners, rising by folder and name; NoWinner for the least known name that has none."""
    rows, without = certify_part(cut)
    if without:
        raise NoWinner(*without[0])
    return rows


def first_fault(cluster: Cluster, device: type[verdict.Device] = verdict.Device):
    """Why the cluster's cut isn't settled for the list of its own winners: reason, folder, name, device; None where it
    is. What is asked of a device is asked by the rules of `device`."""
    cut = cut_of(cluster)
    try:
        return verdict.Cut(cut, device).first_fault(certify(cut))
    except NoWinner as none:
        return "NotWinner", none.folder, none.name, None


def settled_contents(cluster: Cluster):
    """The content that each known name is settled at; None where the cut isn't settled for its own winners."""
    if first_fault(cluster) is not None:
        return None
    return {(row["folder"], row["record"]["name"]): verdict.content(row["record"]) for row in certify(cut_of(cluster))}


def stores_of(cluster: Cluster) -> dict:
    """Kind, bytes and target of each node in each store: what is kept, whatever the times are."""
    return {(peer.number, folder): {name: (node.kind, node.data, node.target)
                                    for name, node in replica.store.nodes.items()}
            for peer in cluster.peers.values() for folder, replica in peer.replicas.items()}
