#!/usr/bin/env python3
"""A second reading of scenario documents, and what `syncaudit run` should write for each: the refused steps, the report
on the cut that they leave, and its list of winners.

    second/scenario.py < DOCUMENT
"""

import sys

import placed
import reading
import reports
import things
from cluster.choice import FolderKind
from cluster.core import Cluster, Config, Share
from cluster.cut import NoWinner, certify, cut_of
from cluster.record import Kind, Node
from cluster.refusal import Why
from cluster.step import (Announce, Ask, Begin, Connect, Deliver, Edit, Finish, Lose, Override, Remove, Reset, Restart,
                          Revert, Scan, StartPull, Step)
from json_text import U64
from shapes import is_list, is_node, is_object, is_pair, is_text, is_whole
from things import Fault, at_most, passed, within

# ---- shapes

DEVICE_AND_NAME = (is_whole, is_text, is_text)
TWO_DEVICES = (is_whole, is_whole)
STEPS = {
    "edit": (Edit, (is_whole, is_text, is_node)), "remove": (Remove, DEVICE_AND_NAME), "scan": (Scan, DEVICE_AND_NAME),
    "override": (Override, DEVICE_AND_NAME), "revert": (Revert, DEVICE_AND_NAME), "connect": (Connect, TWO_DEVICES),
    "lose": (Lose, TWO_DEVICES), "begin": (Begin, TWO_DEVICES), "deliver": (Deliver, TWO_DEVICES),
    "announce": (Announce, (is_whole, is_whole, is_text)), "pull": (StartPull, DEVICE_AND_NAME),
    "ask": (Ask, (is_whole, is_whole, is_text, is_text)), "finish": (Finish, DEVICE_AND_NAME),
    "restart": (Restart, (is_whole,)), "reset": (Reset, (is_whole, is_whole)),
}
WORDS = {1: STEPS.keys() - {"reset"}, 2: STEPS.keys()}


def is_step_of(version: int):
    """Whether a value is a list of a step's word, one that documents of this version have, and what belongs to it."""
    def is_step(value) -> bool:
        if not isinstance(value, list) or not value or not is_text(value[0]) or value[0] not in WORDS[version]:
            return False
        _, shapes = STEPS[value[0]]
        return len(value) == 1 + len(shapes) and all(shape(item) for shape, item in zip(shapes, value[1:]))
    return is_step


IS_SHARE = is_object({"device": is_whole, "kind": is_text, "index_id": is_whole})
IS_FOLDER = is_object({"folder": is_text, "devices": is_list(IS_SHARE)})
IS_SCENARIO = {version: is_object({"version": is_whole, "folders": is_list(IS_FOLDER), "links": is_list(is_pair),
                                   "steps": is_list(is_step_of(version))}) for version in WORDS}


# ---- things, each inside its range

def share(value: dict) -> Share:
    """A device of a folder."""
    device = within(value["device"], 1, U64)
    passed(value["kind"] in {kind.value for kind in FolderKind}, value["kind"])
    return Share(device, FolderKind(value["kind"]), within(value["index_id"], 1, U64))


def folder(value: dict) -> tuple[str, list[Share]]:
    """A folder's name, and the devices that share it."""
    return things.folder_name(value["folder"]).decode(), list(map(share, value["devices"]))


def step(value: list, version: int) -> tuple[Step, dict | None]:
    """A step, and the node of an edit as the other reading has it."""
    make, shapes = STEPS[value[0]]
    numbers = [within(item, 1, U64) for item in value[1:] if is_whole(item)]
    texts = value[1 + len(numbers):]
    if make is Edit:
        item = things.node(texts[1], version)
        node = Node(Kind(item["kind"]), item["seconds"], item["nanoseconds"], item["bytes"], item["target"].decode())
        return Edit(*numbers, things.folder_name(texts[0]).decode(), item["name"].decode(), node), item
    named = [things.folder_name(text) for text in texts[:1]] + [things.file_name(text) for text in texts[1:]]
    return make(*numbers, *(text.decode() for text in named)), None


# ---- faults with a place

def find_twice(folders: list[tuple[str, list[Share]]], links: list[tuple[int, int]]) -> None:
    """Refuses a folder, a device of a folder, or a link that stands twice, at the later one."""
    names = placed.Once()
    for name, shares in folders:
        here = name.encode()
        names.add(name, here, None, None)
        devices = placed.Once()
        for one in shares:
            devices.add(one.device, here, one.device, None)
    ends = placed.Once()
    for a, b in links:
        ends.add((a, b), None, a, None)


def find_bad_node(steps: list[tuple[Step, dict | None]]) -> None:
    """Refuses an edit whose node has bytes or a target that its kind doesn't have."""
    for one, item in steps:
        if item is not None and not placed.fits_kind(item):
            raise Fault(187, one.folder.encode(), one.device, item["name"])


def find_bad_link(folders: list[tuple[str, list[Share]]], links: list[tuple[int, int]]) -> None:
    """Refuses a link whose ends don't rise, or aren't devices of some folder."""
    devices = {one.device for _, shares in folders for one in shares}
    for a, b in links:
        if not a < b or not {a, b} <= devices:
            raise Fault(189, None, a, None)


def read_scenario(document: bytes) -> tuple[Config, list[Step], int]:
    """The cluster and the steps that the document tells of, and its version, or the fault for which it is refused."""
    value = reading.tree(document)
    version = reading.version_of(value)
    if not IS_SCENARIO[version](value):
        raise Fault(183)
    folders = list(map(folder, at_most(value["folders"], 16)))
    at_most({one.device for _, shares in folders for one in shares}, 16)
    links = [(within(a, 1, U64), within(b, 1, U64)) for a, b in value["links"]]
    steps = [step(one, version) for one in value["steps"]]
    find_twice(folders, links)
    find_bad_node(steps)
    find_bad_link(folders, links)
    return Config({name: tuple(shares) for name, shares in folders}, tuple(links)), [one for one, _ in steps], version


# ---- what is written

def refused_steps(cluster: Cluster, steps: list[Step]) -> list[bytes]:
    """Takes the steps; a line for each that was refused."""
    lines = []
    for number, one in enumerate(steps, start=1):
        answer = cluster.apply(one)
        if isinstance(answer, Why):
            lines.append(f"step {number}: {answer.value} {answer.name}".encode())
    return lines


def version_text(version: dict[int, int]) -> bytes:
    """A version as certificates print it."""
    return b",".join(b"%d:%d" % counter for counter in sorted(version.items())) or b"-"


def certificate_line(row: dict, version: int) -> bytes:
    """The line of a row; in version 2 it ends with the record's block size."""
    record = row["record"]
    line = b"%s %s %d %d %s %s" % (row["folder"], reports.printed(record["name"]), row["device"], record["kind"],
                                   b"deleted" if record["deleted"] else b"present", version_text(record["version"]))
    return line if version == 1 else b"%s %d" % (line, record["block_size"])


def certificate_lines(rows: list[dict], version: int) -> list[bytes]:
    """A line for each row."""
    return [certificate_line(row, version) for row in rows]


def report_without_winner(cut: dict, none: NoWinner) -> tuple[list[bytes], int]:
    """The report on a cut that has a known name without winner."""
    lines, _ = reports.report(cut | {"rows": []})
    verdict = b"not settled: NotWinner %s %s" % (none.folder, reports.printed(none.name))
    return [verdict] + lines[1:], 1


def run(config: Config, steps: list[Step], version: int) -> tuple[list[bytes], int]:
    """The lines on the cluster that these steps leave, and the exit status."""
    cluster = Cluster.new(config)
    refused = refused_steps(cluster, steps)
    cut = cut_of(cluster)
    try:
        rows = certify(cut)
    except NoWinner as none:
        lines, status = report_without_winner(cut, none)
        return refused + lines, status
    lines, status = reports.report(cut | {"rows": rows})
    return refused + lines + certificate_lines(rows, version), status


def answer(document: bytes) -> tuple[bytes, int]:
    """What `syncaudit run` should write for the document, and its exit status."""
    try:
        lines, status = run(*read_scenario(document))
    except Fault as fault:
        lines, status = reports.refusal(fault)
    return reports.written(lines, status)


if __name__ == "__main__":
    written, exit_status = answer(sys.stdin.buffer.read())
    sys.stdout.buffer.write(written)
    sys.exit(exit_status)
