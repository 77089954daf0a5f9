#!/usr/bin/env python3
"""Writes a check document near the limits to standard output, of the kind that its one argument names.

settled   16 folders, 2 devices, 4096 files in each: 60 MB
flights   one folder, 2 devices, 4096 files, and 160,000 records on their way: 40 MB
devices   one folder, 16 devices, 128 directories, each known to each device from each other one, and on its way over
          each of the 120 links in both directions as often as 64 MiB allow: many devices, many records of each name
names     one folder, 16 devices, 4096 directories, and as many records on their way as 64 MiB allow: many rows
long      one folder, 6 devices, 4096 directories whose names have 1000 bytes, of which the last four differ
bytes     one folder, one device, three files of 16 MiB each: all the time goes into SHA-256
"""
import hashlib
import itertools
import json
import sys

MAX_BYTES = 64 * 2**20
TEXT = "hello"
LENGTH = 131072


def blocks_of(text):
    """The hashes of the block list of the bytes, in lower-case digits."""
    data = text.encode()
    pieces = [data[at : at + LENGTH] for at in range(0, len(data), LENGTH)]
    return [hashlib.sha256(piece).hexdigest() for piece in pieces or [b""]]


BLOCKS = blocks_of(TEXT)


def file_record(name, place, text=TEXT, blocks=BLOCKS):
    return {
        "name": name,
        "type": 0,
        "size": len(text),
        "modified_s": 1700000000 + place,
        "modified_ns": 5,
        "modified_by": 1,
        "version": [[1, 1]],
        "sequence": place + 1,
        "blocks": blocks,
    }


def file_node(name, place, text=TEXT):
    return {"name": name, "type": 0, "modified_s": 1700000000 + place, "modified_ns": 5, "text": text}


def directory_record(name, place):
    return {"name": name, "type": 1, "modified_s": 0, "modified_by": 1, "version": [[1, 1]], "sequence": place + 1}


def directory_node(name, place):
    return {"name": name, "type": 1, "modified_s": 0}


def device(number, own, store, **more):
    return {"device": number, "kind": "send-receive", "index_id": 10 + number, "max": len(own), "own": own, "store": store, **more}


def document(folders, links, rows):
    return {"version": 1, "cut": {"folders": folders, "links": links}, "certificate": rows}


def rows_of(folder, own):
    return [{"folder": folder, "device": 1, "record": one} for one in own]


def settled():
    names = [f"folder-of-names/file-{place:06}" for place in range(4096)]
    own = [file_record(name, place) for place, name in enumerate(names)]
    store = [file_node(name, place) for place, name in enumerate(names)]
    folders = [f"folder-{number:02}" for number in range(16)]
    devices = [device(1, own, store), device(2, own, store)]
    return document([{"folder": name, "devices": devices} for name in folders], [], [row for name in folders for row in rows_of(name, own)])


def flights():
    names = [f"folder-of-names/file-{place:06}" for place in range(4096)]
    own = [file_record(name, place) for place, name in enumerate(names)]
    store = [file_node(name, place) for place, name in enumerate(names)]
    message = {"folder": "docs", "full": False, "records": own[:1000]}
    link = {"a": 1, "b": 2, "up": True, "epoch": 1, "to_a": [message] * 80, "to_b": [message] * 80}
    return document([{"folder": "docs", "devices": [device(1, own, store), device(2, own, store)]}], [link], rows_of("docs", own))


def filled(folders, rows, message, limit=MAX_BYTES):
    """With this message on its way over each link in both directions, as often as there is room below the limit."""
    pairs = list(itertools.combinations(range(1, 17), 2))
    links = [{"a": a, "b": b, "up": True, "epoch": 1, "to_a": [], "to_b": []} for a, b in pairs]
    queues = [queue for link in links for queue in (link["to_a"], link["to_b"])]
    room = limit - len(text_of(document(folders, links, rows)))
    each = len(text_of(message)) + 1
    for place in range(min(room // each, 1024 * len(queues))):
        queues[place % len(queues)].append(message)
    return document(folders, links, rows)


def devices():
    names = [f"{place:03}" for place in range(128)]
    own = [directory_record(name, place) for place, name in enumerate(names)]
    store = [directory_node(name, place) for place, name in enumerate(names)]
    numbers = range(1, 17)
    view = lambda of: {"of": of, "index_id": 10 + of, "max": len(own), "records": own}
    shares = [device(one, own, store, views=[view(of) for of in numbers if of != one]) for one in numbers]
    return filled([{"folder": "docs", "devices": shares}], rows_of("docs", own), {"folder": "docs", "full": False, "records": own})


def shares_of(names, devices):
    """The own records of these directories, and what so many devices have of them."""
    own = [directory_record(name, place) for place, name in enumerate(names)]
    store = [directory_node(name, place) for place, name in enumerate(names)]
    return own, [device(one, own, store) for one in range(1, devices + 1)]


def long():
    own, shares = shares_of([f"{'n' * 996}{place:04}" for place in range(4096)], 6)
    return document([{"folder": "docs", "devices": shares}], [], rows_of("docs", own))


def names(limit=MAX_BYTES):
    own, shares = shares_of([f"{place:04}" for place in range(4096)], 16)
    return filled([{"folder": "docs", "devices": shares}], rows_of("docs", own), {"folder": "docs", "full": False, "records": own[:1000]}, limit)


def files():
    """All the time goes into SHA-256."""
    texts = {name: letter * 2**24 for name, letter in (("a", "a"), ("b", "b"), ("c", "c"))}
    own = [file_record(name, place, text, blocks_of(text)) for place, (name, text) in enumerate(texts.items())]
    store = [file_node(name, place, text) for place, (name, text) in enumerate(texts.items())]
    return document([{"folder": "docs", "devices": [device(1, own, store)]}], [], rows_of("docs", own))


def text_of(tree):
    return json.dumps(tree, separators=(",", ":"))


KINDS = {"settled": settled, "flights": flights, "devices": devices, "names": names, "long": long, "bytes": files}

if __name__ == "__main__":
    if len(sys.argv) != 2 or sys.argv[1] not in KINDS:
        sys.exit(f"usage: make_document.py {'|'.join(KINDS)}")
    sys.stdout.write(text_of(KINDS[sys.argv[1]]()))
