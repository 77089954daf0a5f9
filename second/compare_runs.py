#!/usr/bin/env python3
"""Compares what the program's `run` writes for random scenarios with the second reading (scenario.py).

    second/compare_runs.py [COUNT [SEED]]

COUNT scenarios (1000 if not given), of both versions in turn: random folders, devices and links, and up to 200 steps, most
of them such that there is something to do, in version 2 index resets too; one of ten has a mistake made somewhere. The
program must be built, as SYNCAUDIT_BUILD=1 ./syncaudit does. `second/compare_runs.py 1 NUMBER` makes that one again.
"""

import random
import subprocess
import sys
from collections import Counter

import scenario
from cluster.core import Cluster, Config
from cluster.record import Kind, Node
from cluster.step import (Announce, Ask, Begin, Connect, Deliver, Edit, Finish, Lose, Override, Remove, Reset, Restart,
                          Revert, Scan, StartPull, Step)
from compare import PROGRAM
from documents import Documents
from runs import Walk
from settled import Making, random_config

WORDS = {Edit: "edit", Remove: "remove", Scan: "scan", Override: "override", Revert: "revert", Connect: "connect",
         Lose: "lose", Begin: "begin", Deliver: "deliver", Announce: "announce", StartPull: "pull", Ask: "ask",
         Finish: "finish", Restart: "restart", Reset: "reset"}


def node_value(name: str, node: Node) -> dict:
    """A node, as a document has it."""
    value = {"name": name, "type": int(node.kind), "modified_s": node.modified_s}
    if node.modified_ns:
        value["modified_ns"] = node.modified_ns
    if node.kind == Kind.File:
        value["hex"] = node.data.hex()
    if node.kind == Kind.Symlink:
        value["target"] = node.target
    return value


def step_value(step: Step) -> list:
    """A step, as a document has it."""
    if isinstance(step, Edit):
        return ["edit", step.device, step.folder, node_value(step.name, step.node)]
    return [WORDS[type(step)], *vars(step).values()]


def random_steps(making: Making, config: Config, count: int, with_resets: bool = False) -> list[Step]:
    """So many steps, each drawn where the ones before it led."""
    walk = Walk(making, Cluster.new(config), with_resets)
    steps = []
    for _ in range(count):
        kind = making.random.choices(["local", "back", "quiet"], [0.25, 0.1, 0.65])[0]
        step = {"local": walk.local_step, "back": walk.step_back, "quiet": walk.quiet_step}[kind]()
        walk.cluster.apply(step)
        steps.append(step)
    return steps


def scenario_value(config: Config, steps: list[Step], version: int = 1) -> dict:
    """A scenario, as a document of the version has it."""
    folders = [{"folder": folder, "devices": [{"device": share.device, "kind": share.kind.value,
                                               "index_id": share.index_id} for share in shares]}
               for folder, shares in config.folders.items()]
    return {"version": version, "folders": folders, "links": [list(ends) for ends in config.links],
            "steps": list(map(step_value, steps))}


def random_document(number: int) -> bytes:
    """The scenario of this number."""
    making = Making(random.Random(number))
    config = random_config(making)
    version = 1 + number % 2
    steps = random_steps(making, config, making.random.choice([0, 3, 20, 60, 200]), with_resets=version == 2)
    document = scenario_value(config, steps, version)
    if making.happens(0.1):
        document = Documents(number).with_mistake(document)
    return Documents(number).written(document)


def main() -> None:
    """Compares, and tells how often which first line was written."""
    count = int(sys.argv[1]) if len(sys.argv) > 1 else 1000
    seed = int(sys.argv[2]) if len(sys.argv) > 2 else 1
    seen = Counter()
    for number in range(seed, seed + count):
        document = random_document(number)
        ran = subprocess.run([PROGRAM, "run"], input=document, capture_output=True, check=False)
        wanted = scenario.answer(document)
        if (ran.stdout, ran.returncode) != wanted:
            print(document.decode())
            sys.exit(f"scenario {number}: the program wrote {ran.stdout} with status {ran.returncode}, "
                     f"and the second reading {wanted}")
        lines = [line for line in wanted[0].decode().splitlines() if not line.startswith("step ")]
        seen[" ".join(lines[0].split(" ")[:3])] += 1
        seen["steps refused"] += wanted[0].count(b"step ")
    for what, times in seen.most_common():
        print(f"{times:9} {what}")
    print(f"{count} scenarios: no difference")


if __name__ == "__main__":
    main()
