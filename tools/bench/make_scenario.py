#!/usr/bin/env python3
"""make_scenario.py NAMES STEPS: writes a scenario of so many names and steps.

Device 1 puts and scans the names; device 2 is told of all and takes them over; then device 1 changes one name after
another, and device 2 follows each change.
"""

import json
import sys


def steps(names):
    """Steps without end, over so many names."""
    def edit(name, time):
        return ["edit", 1, "docs", {"name": name, "type": 0, "modified_s": time, "text": f"{name} at {time}"}]

    def taken(name):
        return [["pull", 2, "docs", name], ["ask", 2, 1, "docs", name], ["deliver", 1, 2], ["deliver", 2, 1],
                ["finish", 2, "docs", name]]

    def told():
        return [["announce", 1, 2, "docs"], ["deliver", 2, 1]]

    all_names = [f"directory/file-{place}" for place in range(names)]
    for name in all_names:
        yield from [edit(name, 1000), ["scan", 1, "docs", name]]
    yield from [["connect", 1, 2], ["begin", 1, 2], ["begin", 2, 1], ["deliver", 2, 1], ["deliver", 1, 2]]
    for _ in range(0, names, 1000):
        yield from told()
    for name in all_names:
        yield from taken(name)
    time = 1000
    while True:
        time += 1
        for name in all_names:
            yield from [edit(name, time), ["scan", 1, "docs", name], *told(), *taken(name)]


def main():
    names, count = int(sys.argv[1]), int(sys.argv[2])
    devices = [{"device": device, "kind": "send-receive", "index_id": 10 + device} for device in (1, 2)]
    taking = steps(names)
    document = {"version": 1, "folders": [{"folder": "docs", "devices": devices}], "links": [[1, 2]],
                "steps": [next(taking) for _ in range(count)]}
    json.dump(document, sys.stdout)


main()
