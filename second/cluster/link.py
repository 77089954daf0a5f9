"""Messages, and links that deliver them in order."""

from dataclasses import dataclass, field

from .index import Point
from .record import Record, Value
from .refusal import Why, refuse

MOST_WAITING = 1024
MOST_EPOCH = 2**63 - 1


@dataclass(frozen=True)
class Announced(Value):
    """What a ClusterConfig says of a folder: the sender's own point, and the point of its view of the receiver."""

    folder: str
    own: Point
    viewed: Point


@dataclass(frozen=True)
class ClusterConfig(Value):
    """The folders that the sender shares with the receiver."""

    folders: tuple[Announced, ...]


@dataclass(frozen=True)
class Index(Value):
    """All that the sender tells of a folder, or the beginning of it."""

    folder: str
    records: tuple[Record, ...]


@dataclass(frozen=True)
class IndexUpdate(Value):
    """What the sender tells of a folder beside what it told before."""

    folder: str
    records: tuple[Record, ...]


@dataclass(frozen=True)
class Request(Value):
    """Asks for a block of a file."""

    id: int
    folder: str
    name: str
    offset: int
    size: int
    hash: bytes


@dataclass(frozen=True)
class Response(Value):
    """Answers the request of that id: code 0 with the bytes, 1 generic, 2 no such file, 3 invalid file."""

    id: int
    code: int
    data: bytes = b""


Message = ClusterConfig | Index | IndexUpdate | Request | Response


@dataclass
class Link:
    """A link between two devices, the smaller first: at first down, and never connected."""

    a: int
    b: int
    is_up: bool = False
    epoch: int = 0
    to_a: list[Message] = field(default_factory=list)
    to_b: list[Message] = field(default_factory=list)

    def on_its_way_to(self, device: int) -> list[Message]:
        """The messages on their way to one of the ends, the first to arrive first."""
        return self.to_a if device == self.a else self.to_b

    def is_full(self, device: int) -> bool:
        """Whether no more messages can be sent to this end."""
        return len(self.on_its_way_to(device)) >= MOST_WAITING

    def check_is_up(self) -> None:
        """Refuses where the link is down."""
        refuse(Why.LinkDown, when=not self.is_up)

    def connect(self) -> None:
        """Begins the next connection."""
        refuse(Why.NothingToDo, when=self.is_up)
        refuse(Why.EpochFull, when=self.epoch == MOST_EPOCH)
        self.is_up = True
        self.epoch += 1

    def lose(self) -> None:
        """Ends the connection, with all that is on its way."""
        self.check_is_up()
        self.is_up = False
        self.to_a, self.to_b = [], []
