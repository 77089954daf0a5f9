"""Scenarios that are put together of pieces, and what the built program tells of them.

A step is a list, as a scenario has it. Unless it is said otherwise, devices 1 and 2 share the folder 'docs', and are linked.
"""

import json
import subprocess
from dataclasses import dataclass

from counting import Count

SCAN = ["scan", 2, "docs", "hello"]


def share(device, kind="send-receive", index_id=None):
    """A device of a folder; its index id is 10 more than its number if none is given."""
    return {"device": device, "kind": kind, "index_id": device + 10 if index_id is None else index_id}


def scenario(steps, shares, links, version=1):
    """The text of a scenario with one folder."""
    folder = {"folder": "docs", "devices": shares}
    return json.dumps({"version": version, "folders": [folder], "links": links, "steps": steps})


def edit(device, name, seconds, **more):
    """The device puts a file of this time, empty if no bytes are given."""
    return ["edit", device, "docs", {"name": name, "type": 0, "modified_s": seconds, **more}]


def put(name, seconds, **more):
    """Device 1 puts a file and scans it."""
    return [edit(1, name, seconds, **more), ["scan", 1, "docs", name]]


def meet():
    """Both begin a session over a new connection, and each learns how far the other's index goes. These are five steps."""
    return [["connect", 1, 2], ["begin", 1, 2], ["begin", 2, 1], ["deliver", 2, 1], ["deliver", 1, 2]]


def announce():
    return [["announce", 1, 2, "docs"]]


def tell():
    """Device 1 tells of its next records. These are two steps."""
    return announce() + [["deliver", 2, 1]]


def pull(name):
    return [["pull", 2, "docs", name]]


def ask(name):
    return [["ask", 2, 1, "docs", name]]


def finish(name):
    return [["finish", 2, "docs", name]]


def take(name):
    """Device 2 pulls the file of device 1. These are five steps."""
    return pull(name) + ask(name) + [["deliver", 1, 2], ["deliver", 2, 1]] + finish(name)


def record(device, seconds, sequence, version, deleted=False, invalid=False):
    """What is compared of a record: who made it, its time, its sequence, its version and its marks."""
    return {"modified_by": device, "modified_s": seconds, "sequence": sequence, "version": version, "deleted": deleted,
            "invalid": invalid}


def messages(*told):
    """What is compared of the messages to an end: whether each is a whole index, and its names and sequences."""
    return [{"full": full, "records": list(records)} for full, *records in told]


@dataclass
class End:
    """Where a scenario leads: the steps that were refused, and the document of its end, where it has one."""

    refused: list
    text: str

    @property
    def cut(self):
        return json.loads(self.text)["cut"]

    def share(self, device):
        return next(share for share in self.cut["folders"][0]["devices"] if share["device"] == device)

    def own(self, device):
        """The device's own records, without their names and contents."""
        members = record(0, 0, 0, [])
        return [{member: one[member] for member in members} for one in self.share(device)["own"]]

    def names(self, device):
        """The names of the device's own records, with their sequences."""
        return [(one["name"], one["sequence"]) for one in self.share(device)["own"]]

    def store(self, device):
        """The names of the device's files, with their bytes in digits."""
        return [(node["name"], node["hex"]) for node in self.share(device)["store"]]

    def views(self, device):
        """The index that the device knows of the other one: its id, how far it goes, and its names with their sequences."""
        return [(view["index_id"], view["max"], [(one["name"], one["sequence"]) for one in view["records"]])
                for view in self.share(device)["views"]]

    def link(self):
        """The link: whether it is up, its epoch, and what is on its way to each end."""
        link = self.cut["links"][0]
        to_a, to_b = ([(message["full"], *((one["name"], one["sequence"]) for one in message["records"]))
                       for message in link[end]] for end in ("to_a", "to_b"))
        return link["up"], link["epoch"], messages(*to_a), messages(*to_b)


class Program:
    """The built program, and a count of what it tells."""

    def __init__(self, path):
        self.path = path
        self.count = Count("steps")

    def expect(self, what, wanted, told):
        """Counts whether it is told what is wanted."""
        self.count.says(what, "" if told == wanted else f"{told} is told, and not {wanted}")

    def run(self, words, text):
        """What the program writes of a text, and what it tells on standard error, both in lines."""
        done = subprocess.run([self.path, *words], input=text, capture_output=True, text=True)
        return done.stdout.splitlines(), done.stderr.splitlines()

    def first_line(self, words, text):
        """What the program writes first."""
        return (self.run(words, text)[0] or [""])[0]

    def led(self, steps, shares, links):
        """What the program writes first of a scenario."""
        return self.first_line(["run"], scenario(steps, shares, links))

    def ended(self, steps, kind="send-receive", version=1):
        """Where the steps lead; device 2 has the folder in this kind."""
        text = scenario(steps, [share(1), share(2, kind)], [[1, 2]], version)
        output, error = self.run(["run", "--document"], text)
        refused = [line.removeprefix("step ") for line in error if line.startswith("step ")]
        return End(refused, output[0] if output else "")
