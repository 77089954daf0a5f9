"""The story of three devices that lose a file, though they were settled.

Anna (device 1), Ben (2) and Cleo (3) share a folder. A price list of two lines is in it. A backup has the list too,
with Monday's date. Ben got it by mail on Tuesday. Anna saved it into the folder on Wednesday, and Cleo's device
received it from hers.

1. Cleo takes the second line away. Anna's device receives the change. It announces to Cleo's device that it has it;
   this message is slow, and stays on its way.
2. Anna and Cleo both see the mistake. Each puts the list back from the backup, with Monday's date.
3. Ben joins the folder. He has the list from the mail already.

All three have the same bytes now, and nobody touches a file from here on: the cluster is settled. It isn't firm: the
three records have the same content, but versions of which none is the greatest.

Here devices take a record's version as it is, as Syncthing does, and don't merge it with their own. So:

4. Cleo's device takes Ben's record over, since Tuesday is later than Monday. Then it takes Anna's first record over,
   of Wednesday: that is the last that it heard from her. The bytes stay. But its own record has a version now that is
   older than the change of step 1.
5. Cleo's device tells the others, and their devices do the same. Nobody has a record any more that says that the
   mistake was undone.
6. The slow message arrives. It is newer than all that Cleo's device has, so the device pulls the list of one line. No
   conflict copy is kept, since nothing conflicts.
7. It tells the others, and they pull it too. The second line is lost on all three devices.

With merged versions each device keeps what it knew, the slow message is old news wherever it comes, and nothing
happens. """

from cases import BOTH, DOCS, empty_cluster, text
from cluster.core import Cluster
from cluster.replica import Replica
from cluster.step import Announce, Ask, Begin, Connect, Deliver, Edit, Finish, Scan, StartPull, Step

ANNA, BEN, CLEO = 1, 2, 3
LIST = "list"
TWO_LINES, ONE_LINE = "one\ntwo\n", "one\n"
MONDAY, TUESDAY, WEDNESDAY, LATER = 1000, 2000, 3000, 4000


def connect(a: int, b: int) -> list[Step]:
    """A connection of two devices, each of which knows what the other one has of its index."""
    return [Connect(a, b), Begin(a, b), Begin(b, a), Deliver(b, a), Deliver(a, b)]


def tell(device: int, other: int) -> list[Step]:
    """The device tells the other one what is new in its index."""
    return [Announce(device, other, DOCS), Deliver(other, device)]


def save(device: int, content: str, seconds: int) -> list[Step]:
    """Someone saves the list on the device, which scans it."""
    return [Edit(device, DOCS, LIST, text(content, seconds)), Scan(device, DOCS, LIST)]


def fetch(device: int, other: int, name: str = LIST) -> list[Step]:
    """The device pulls a file of one block from the other one, the list if none is named."""
    return [StartPull(device, DOCS, name), Ask(device, other, DOCS, name), Deliver(other, device),
            Deliver(device, other), Finish(device, DOCS, name)]


def adopt(device: int) -> list[Step]:
    """The device takes a record of the bytes that it has."""
    return [StartPull(device, DOCS, LIST), Finish(device, DOCS, LIST)]


BEFORE = [
    *save(ANNA, TWO_LINES, WEDNESDAY), *connect(ANNA, CLEO), *tell(ANNA, CLEO), *fetch(CLEO, ANNA),
    *save(CLEO, ONE_LINE, LATER), *tell(CLEO, ANNA), *fetch(ANNA, CLEO), Announce(ANNA, CLEO, DOCS),
    *save(ANNA, TWO_LINES, MONDAY), *save(CLEO, TWO_LINES, MONDAY),
    *save(BEN, TWO_LINES, TUESDAY), *connect(ANNA, BEN), *connect(BEN, CLEO), *tell(BEN, ANNA), *tell(BEN, CLEO),
]
QUIET = [
    *adopt(CLEO), *adopt(CLEO),
    *tell(CLEO, ANNA), *tell(CLEO, BEN), *adopt(ANNA), *adopt(ANNA), *adopt(BEN),
    Deliver(CLEO, ANNA), *fetch(CLEO, ANNA),
    *tell(CLEO, ANNA), *tell(CLEO, BEN), *fetch(ANNA, CLEO), *fetch(BEN, CLEO),
]


def settled_cluster(replica: type[Replica] = Replica) -> Cluster:
    """The cluster after step 3, whose folders go by these rules."""
    made = empty_cluster(BOTH, BOTH, BOTH, replica=replica)
    for step in BEFORE:
        made.apply(step)
    return made
