#!/usr/bin/env python3
"""Whether the logs of a run fit, by a plain reading: each event is held against every log.

    second/fit.py < LINES

Each line is a JSON object with the logs of one run cut, and the verdict of the program that is compared:

    {"logs": [LOG, ..], "verdict": {"fits": COUNT} or {"misfit": OBJECT, "ticket": TICKET}}

A LOG is {"object": OBJECT, "round": ROUND, "events": [EVENT, ..]}. An OBJECT is [DEVICE], or [SMALLER, LARGER] for the
link between two devices. An EVENT is {"ticket": TICKET, "step": [WORD, DEVICE, ..], ..}, with the step as scenarios have
it, and all else that is told of it in further members, of any form. Two entries of logs are equal if all their members
are. The last line is 'N passed, M failed'.
"""

import json
import sys
from collections import defaultdict
from collections.abc import Iterable
from dataclasses import dataclass, field

Object = tuple[int, ...]
OVER_A_LINK = {"begin", "deliver", "announce", "ask"}
OF_A_LINK = {"connect", "lose"}
OF_ALL_LINKS = {"restart", "reset"}


def rank(thing: Object) -> tuple[int, Object]:
    """Devices come before links, and each rise."""
    return len(thing), thing


@dataclass
class Log:
    """What is logged of a device or a link since its base, in the order in which it stands there."""

    object: Object
    round: int
    events: list[dict]
    by_ticket: dict[int, list[dict]] = field(init=False)

    def __post_init__(self):
        self.by_ticket = defaultdict(list)
        for event in self.events:
            self.by_ticket[event["ticket"]].append(event)

    def at(self, ticket: int) -> list[dict]:
        """The entries under the ticket."""
        return self.by_ticket.get(ticket, [])

    def falls_at(self, ticket: int) -> bool:
        """Whether an entry under the ticket stands right behind one whose ticket isn't below it."""
        return any(event["ticket"] == ticket <= before["ticket"]
                   for before, event in zip(self.events, self.events[1:]))


def named(step: list) -> list[Object]:
    """The device and the link that a step names; a restart names its device alone."""
    word, device, *rest = step
    if word in OF_A_LINK:
        return [(device, rest[0])]
    return [(device,), tuple(sorted((device, rest[0])))] if word in OVER_A_LINK else [(device,)]


def touches(step: list, thing: Object) -> bool:
    """Whether a step changes the object, or may: it is what is locked while the step is made."""
    return thing in named(step) or (step[0] in OF_ALL_LINKS and step[1] in thing)


def lacks(logs: dict[Object, Log], event: dict) -> bool:
    """Whether some object that the event touches, there or not, doesn't have it."""
    touched = {thing for thing in logs if touches(event["step"], thing)}.union(named(event["step"]))
    return any(thing not in logs or event not in logs[thing].at(event["ticket"]) for thing in touched)


def is_at_fault(logs: dict[Object, Log], log: Log, ticket: int) -> bool:
    """Whether the object's event under the ticket is at fault."""
    def is_wrong(event: dict) -> bool:
        """Whether a touched object lacks it, some object has another one, or one that it doesn't touch has one."""
        return lacks(logs, event) or any(other != event or not touches(event["step"], one.object)
                                         for one in logs.values() for other in one.at(ticket))

    return log.falls_at(ticket) or any(map(is_wrong, log.at(ticket)))


def verdict(all_logs: Iterable[Log]) -> dict:
    """Whether the logs fit and how many events they have; or the first misfit."""
    logs = {log.object: log for log in sorted(all_logs, key=lambda log: rank(log.object))}
    rounds = [log.round for log in logs.values()]
    for log in logs.values():
        if log.round != rounds[0]:
            return {"misfit": list(log.object), "ticket": 0}
    tickets = sorted({ticket for log in logs.values() for ticket in log.by_ticket})
    for ticket in tickets:
        for log in logs.values():
            if is_at_fault(logs, log, ticket):
                return {"misfit": list(log.object), "ticket": ticket}
    # without a fault there is one event under each ticket
    return {"fits": len(tickets)}


def read(value: dict) -> Log:
    """A log of a line."""
    return Log(tuple(value["object"]), value["round"], value["events"])


def differing(line: str) -> str:
    """How the line's verdict differs from this reading's; nothing where it doesn't."""
    value = json.loads(line)
    mine = verdict(map(read, value["logs"]))
    return "" if mine == value["verdict"] else f"{value['verdict']}, and by this reading {mine}"


def main() -> int:
    """Compares the verdict of each line; the exit status is 1 where one differs, or none is there."""
    passed = failed = 0
    for number, line in enumerate(sys.stdin, 1):
        why = differing(line)
        failed, passed = failed + bool(why), passed + (not why)
        if why:
            print(f"line {number}: {why}")
    failed = max(failed, int(not passed))
    print(f"{passed} passed, {failed} failed")
    return int(failed > 0)


if __name__ == "__main__":
    sys.exit(main())
