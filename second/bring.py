"""The run that brings what prevails of a name to a device. The device is restarted, and so is one that has the top; they
begin a session, the owner announces its records, and the device pulls the name. Each step must be done."""

from collections.abc import Callable

from cluster import index
from cluster.core import Cluster
from cluster.record import Record, same_content
from cluster.replica import Replica
from cluster.step import Announce, Ask, Begin, Connect, Deliver, Finish, Restart, StartPull, Step
from runs import Contradiction

Take = Callable[[Step], None]


def meet(device: int, owner: int) -> list[Step]:
    """The two begin a session over a new connection of their link."""
    return [Restart(device), Restart(owner), Connect(min(device, owner), max(device, owner)), Begin(device, owner),
            Begin(owner, device), Deliver(device, owner), Deliver(owner, device)]


def lacks_blocks(replica: Replica, name: str) -> bool:
    """Whether a block must be fetched before the name's pull can end."""
    pull, own = replica.pulls[name], replica.own(name)
    return not pull.is_complete() and not (own and same_content(pull.target, own))


def most_steps(top: Record) -> int:
    """So many steps the run has at most."""
    return 9 + 2 * (top.sequence // index.MOST_RECORDS + 1) + 3 * len(top.blocks)


def bring(cluster: Cluster, device: int, owner: int, folder: str, name: str, take: Take) -> None:
    """Takes the steps of the run by `take`, which must do each."""
    replica, top = cluster.replica(device, folder), cluster.replica(owner, folder).own(name)
    left = most_steps(top)

    def take_all(*steps: Step) -> None:
        nonlocal left
        left -= len(steps)
        if left < 0:
            raise Contradiction("the run has too many steps", device, folder, name)
        for step in steps:
            take(step)

    take_all(*meet(device, owner))
    while replica.views[owner].records.get(name) != top:
        take_all(Announce(owner, device, folder), Deliver(device, owner))
    take_all(StartPull(device, folder, name))
    while lacks_blocks(replica, name):
        take_all(Ask(device, owner, folder, name), Deliver(owner, device), Deliver(device, owner))
    take_all(Finish(device, folder, name))
