"""What two devices say to each other over a link: sessions, and the steps that send and receive."""

import hashlib
from dataclasses import dataclass, field

from .index import Cursor
from .link import Announced, ClusterConfig, Index, IndexUpdate, Link, Message, Request, Response
from .record import same_content
from .refusal import Moved, Refused, Why, refuse
from .replica import Pull, Replica
from .store import Faults

MOST_REQUESTS = 64
MOST_REQUEST_ID = 2**31 - 1


@dataclass
class Session:
    """What a device remembers of its connection of that epoch with another one."""

    epoch: int
    is_configured: bool = False
    cursors: dict[str, Cursor] = field(default_factory=dict)
    outstanding: list[Request] = field(default_factory=list)
    next_id: int = 1


@dataclass
class Peer:
    """A device: a replica for each folder that it shares, and a session for each device that it talked with."""

    number: int
    faults: Faults = field(compare=False)
    replicas: dict[str, Replica] = field(default_factory=dict)
    sessions: dict[int, Session] = field(default_factory=dict)

    def shares(self, folder: str, other: int) -> bool:
        """Whether this device and the other one share the folder."""
        return folder in self.replicas and other in self.replicas[folder].views

    def shared_with(self, other: int) -> list[str]:
        """The folders that this device and the other one share, rising."""
        return sorted(folder for folder in self.replicas if self.shares(folder, other))

    def has_session(self, other: int, link: Link) -> bool:
        """Whether there is a session with the other device of the link's present connection."""
        return other in self.sessions and self.sessions[other].epoch == link.epoch

    def session(self, other: int, link: Link) -> Session:
        """The session of the present connection; refused where none has begun."""
        refuse(Why.NotBegun, when=not self.has_session(other, link))
        return self.sessions[other]


def begin(peer: Peer, link: Link, other: int) -> Moved:
    """Begins a session, and tells which folders are shared and how far the indexes go."""
    link.check_is_up()
    refuse(Why.NothingToDo, when=peer.has_session(other, link))
    refuse(Why.LinkFull, when=link.is_full(other))
    peer.sessions[other] = Session(link.epoch)
    replicas = [(folder, peer.replicas[folder]) for folder in peer.shared_with(other)]
    announced = [Announced(folder, replica.index.point, replica.views[other].point) for folder, replica in replicas]
    link.on_its_way_to(other).append(ClusterConfig(tuple(announced)))
    return Moved.Changed


def announce(peer: Peer, link: Link, other: int, folder: str) -> Moved:
    """Sends the next records of the folder's index: an Index at first, where the other device needs all of it."""
    link.check_is_up()
    session = peer.session(other, link)
    refuse(Why.NotBegun, when=folder not in session.cursors)
    cursor = session.cursors[folder]
    index = peer.replicas[folder].index
    records = index.after(0 if cursor == "full" else cursor)
    refuse(Why.NothingToDo, when=cursor != "full" and not records)
    refuse(Why.LinkFull, when=link.is_full(other))
    message = Index(folder, records) if cursor == "full" else IndexUpdate(folder, records)
    link.on_its_way_to(other).append(message)
    session.cursors[folder] = records[-1].sequence if records else 0
    return Moved.Changed


def ask(peer: Peer, link: Link, other: int, folder: str, name: str) -> Moved:
    """Asks the other device for the first block of a pull that is neither there nor asked for."""
    link.check_is_up()
    session = peer.session(other, link)
    request = next_request(peer.replicas[folder], session, other, folder, name)
    refuse(Why.NothingToDo, when=request is None)
    refuse(Why.LinkFull, when=link.is_full(other))
    link.on_its_way_to(other).append(request)
    session.outstanding.append(request)
    session.next_id += 1
    return Moved.Changed


def next_request(replica: Replica, session: Session, other: int, folder: str, name: str) -> Request | None:
    """The request for the next block of a pull, if there is something to ask the other device for."""
    pull = replica.pulls.get(name)
    if pull is None or same_content(pull.target, replica.own(name)):
        return None
    has_room = len(session.outstanding) < MOST_REQUESTS and session.next_id <= MOST_REQUEST_ID
    theirs = replica.views[other].records.get(name)
    if not has_room or theirs is None or theirs.invalid or not same_content(pull.target, theirs):
        return None
    asked = {(one.folder, one.name, one.offset, one.size, one.hash) for one in session.outstanding}
    for place, block in enumerate(pull.target.blocks):
        if place not in pull.received and (folder, name, block.offset, block.size, block.hash) not in asked:
            return Request(session.next_id, folder, name, block.offset, block.size, block.hash)
    return None


def deliver(peer: Peer, link: Link, other: int) -> Moved:
    """Takes the first message on its way from the other device; the link is lost where it shouldn't have been sent."""
    link.check_is_up()
    session = peer.session(other, link)
    waiting = link.on_its_way_to(peer.number)
    refuse(Why.NothingToDo, when=not waiting)
    message = waiting[0]
    if not is_expected(peer, session, other, message):
        link.lose()
        return Moved.LinkLost
    match message:
        case ClusterConfig(folders):
            take_config(peer, session, other, folders)
        case Index(folder, records):
            peer.replicas[folder].views[other].replace(records)
        case IndexUpdate(folder, records):
            peer.replicas[folder].views[other].amend(records)
        case Request():
            refuse(Why.LinkFull, when=link.is_full(other))
            link.on_its_way_to(other).append(respond(peer.replicas[message.folder], message))
        case Response():
            take_response(peer, session, message)
    waiting.pop(0)
    return Moved.Changed


def is_expected(peer: Peer, session: Session, other: int, message: Message) -> bool:
    """Whether the other device may have sent this message in this session."""
    match message:
        case ClusterConfig(announced):
            folders = [one.folder for one in announced]
            return (not session.is_configured and len(set(folders)) == len(folders)
                    and all(peer.shares(folder, other) for folder in folders))
        case IndexUpdate(folder, records) if folder in session.cursors and records:
            return records[0].sequence > peer.replicas[folder].views[other].sequence
        case Index(folder) | IndexUpdate(folder) | Request(_, folder):
            return folder in session.cursors
    return True


def take_config(peer: Peer, session: Session, other: int, announced: tuple[Announced, ...]) -> None:
    """Takes over which folders the other device named: a view of another index of it is cleared."""
    session.is_configured = True
    for one in announced:
        replica = peer.replicas[one.folder]
        index_id, _ = one.own
        if replica.views[other].id != index_id:
            replica.views[other].clear(index_id)
        session.cursors[one.folder] = replica.index.plan(one.viewed)


def respond(replica: Replica, request: Request) -> Response:
    """What the store has at a request's range of a file."""
    try:
        data = replica.answer(request.name, request.offset, request.size)
    except Refused:
        return Response(request.id, 1)
    if data is None:
        return Response(request.id, 2)
    if hashlib.sha256(data).digest() != request.hash:
        return Response(request.id, 3)
    return Response(request.id, 0, data)


def take_response(peer: Peer, session: Session, response: Response) -> None:
    """Takes a block that was asked for to the pull that it was asked for; ignored where none was."""
    requests = [one for one in session.outstanding if one.id == response.id]
    if not requests:
        return
    request = requests[0]
    session.outstanding.remove(request)
    pull = peer.replicas[request.folder].pulls.get(request.name)
    if response.code == 0 and pull:
        receive(pull, request, response.data)


def receive(pull: Pull, request: Request, data: bytes) -> None:
    """Keeps the bytes where the pull has the block that was asked for, and they are its."""
    is_right = len(data) == request.size and hashlib.sha256(data).digest() == request.hash
    for place, block in enumerate(pull.target.blocks):
        if is_right and (block.offset, block.size, block.hash) == (request.offset, request.size, request.hash):
            pull.received.setdefault(place, data)
