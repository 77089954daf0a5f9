#!/usr/bin/env python3
"""Writes a document that is costly to answer to standard output, of the kind and the size in megabytes that its two
arguments tell.

Check documents that are costly to explain:

names      make_document's `names`, cut off at this size: 4096 names at 16 devices, and many records on their way
repeated   1000 names at 16 devices, one of their rows again and again, and as many records on their way
falling    4096 names in each folder, at one device, and their rows in falling order
contents   one name at 16 devices, and as many rows about it, no two of the same content
ahead      4096 names at 16 devices that are ahead of their rows on all links: as many failures, with many details
unknown    rows of names that nothing knows, at 16 devices: as many failures as a document of this size can have

Check documents that are costly to read:

digits     files of 10 KB at two devices, all of whose bytes and hashes are hexadecimal digits
strangers  one object with as many members as there is room for, none of them known: refused with 183
nested     objects in one another, 120 deep: refused with 182
twice      `digits` with one device twice: refused with 185

Documents of one piece as often as there is room for. No check document, refused with 181 (unended) or 182:

zeros      a list of `0`
unended    the same without its end
singles    a list of `[0]`
lists      a list of lists in one another, 126 deep
objects    a list of `{"":0}`

Check documents, refused with 183 to 185:

members    an object with a member over and over that isn't known
rows       a certificate of `0`: `certify` doesn't look at it
pairs      a record's version of `[1,1]`
hashes     a record's blocks of `""`
records    a device's records, more than it may have
messages   messages without records on a link, more than it may have
nodes      a device's store, of one node
views      a device's views, of one device without records
links      one link

Check documents that are read:

escapes    a file whose bytes are written as `\\u0041`

Scenarios that are costly to run:

scans      one file of 16 MiB, scanned again and again: 16.8 MB have 200 scans
crowded    the same where 4096 other names leave no room for it, so that each scan is refused
asks       one file of 16 MiB, whose first block is asked for over a link again and again
steps      a step that is refused
restarts   a step that isn't
edits      a small node, put again and again
flood      1000 names, each changed and sent to 15 devices again and again, none of which takes any message
"""
import functools
import hashlib
import random
import sys

from make_document import device, directory_node, directory_record, document, file_node, file_record, filled, names, rows_of, text_of


def sixteen(own, store):
    return [{"folder": "docs", "devices": [device(one, own, store) for one in range(1, 17)]}]


def with_rows(folders, row_at, limit):
    """As many rows as there is room for, the one at each place by `row_at`."""
    room, rows = limit - len(text_of(document(folders, [], []))), []
    while room > 0:
        rows.append(row_at(len(rows)))
        room -= len(text_of(rows[-1])) + 1
    return document(folders, [], rows[:-1])


def repeated(limit):
    own = [directory_record(f"{place:04}", place) for place in range(1000)]
    store = [directory_node(one["name"], 0) for one in own]
    half = with_rows(sixteen(own, store), lambda place: rows_of("docs", own)[0], limit // 2)
    return filled(half["cut"]["folders"], half["certificate"], {"folder": "docs", "full": False, "records": own}, limit)


def falling(limit):
    each = len(text_of([directory_record("0000", 1000), directory_node("0000", 0), rows_of("docs-00", [directory_record("0000", 1000)])]))
    names = [f"{place:04}" for place in range(4096)]
    own = [directory_record(name, place) for place, name in enumerate(names)]
    store = [directory_node(name, 0) for name in names]
    folders = [{"folder": f"docs-{place:02}", "devices": [device(1, own, store)]} for place in range(limit // each // 4096)]
    return document(folders, [], [row for one in folders for row in rows_of(one["folder"], own)][::-1])


def contents(limit):
    own, store = [file_record("a", 0)], [file_node("a", 0)]
    row_at = lambda place: rows_of("docs", [{**own[0], "blocks": [f"{place:064x}"]}])[0]
    return with_rows(sixteen(own, store), row_at, limit)


def ahead(limit):
    own = [directory_record(f"{place:04}", place) for place in range(4096)]
    store = [directory_node(one["name"], 0) for one in own]
    newer = [{**file_record(one["name"], place), "version": [[1, 2]]} for place, one in enumerate(own[:1000])]
    return filled(sixteen(own, store), rows_of("docs", own), {"folder": "docs", "full": False, "records": newer}, limit)


def unknown(limit):
    row_at = lambda place: rows_of("docs", [directory_record(f"{place:06}", place)])[0]
    return with_rows(sixteen([], []), row_at, limit)


def digits(limit):
    bytes_of = lambda place: random.Random(place).randbytes(10_000)
    each = 2 * (20_000 + 400)
    files = {f"files/{place:05}": bytes_of(place) for place in range(min(4096, limit // each))}
    own = [{**file_record(name, place), "size": len(data), "blocks": [hashlib.sha256(data).hexdigest()]} for place, (name, data) in enumerate(files.items())]
    store = [{"name": name, "type": 0, "modified_s": 1700000000 + place, "modified_ns": 5, "hex": data.hex()} for place, (name, data) in enumerate(files.items())]
    return document([{"folder": "docs", "devices": [device(1, own, store), device(2, own, store)]}], [], rows_of("docs", own))


def strangers(limit):
    chosen = random.Random(0)
    return {"version": 1, **{chosen.randbytes(3).hex() if place % 2 else chosen.randbytes(4).hex(): 0 for place in range(limit // 10)}}


def nested(limit):
    one = {}
    for _ in range(119):
        one = {"": one}
    return [one] * ((limit - 2) // (len(text_of(one)) + 1))


def twice(limit):
    whole = digits(limit)
    devices = whole["cut"]["folders"][0]["devices"]
    devices[1] = {**devices[1], "device": 1}
    return whole


def scenario(devices, links, steps):
    shares = [{"device": one, "kind": "send-receive", "index_id": one} for one in devices]
    return {"version": 1, "folders": [{"folder": "docs", "devices": shares}], "links": links, "steps": steps}


def repeated_steps(devices, links, begun, again, limit):
    """The steps `begun`, and `again` as often as there is room for."""
    room = limit - len(text_of(scenario(devices, links, begun)))
    return scenario(devices, links, begun + again * (room // (len(text_of(again)) - 1)))


LARGE = ["edit", 1, "docs", {"name": "large", "type": 0, "modified_s": 1, "text": "x" * 2**24}]
SCAN = ["scan", 1, "docs", "large"]


def scans(limit):
    return repeated_steps([1], [], [LARGE], [SCAN], limit)


def crowded(limit):
    others = [f"{place:04}" for place in range(4096)]
    put = [step for name in others for step in (["edit", 1, "docs", {"name": name, "type": 1, "modified_s": 0}], ["scan", 1, "docs", name])]
    return repeated_steps([1], [], put + [LARGE], [SCAN], limit)


def asks(limit):
    begin = [["connect", 1, 2], ["begin", 1, 2], ["begin", 2, 1], ["deliver", 2, 1], ["deliver", 1, 2]]
    told = [["announce", 1, 2, "docs"], ["deliver", 2, 1], ["pull", 2, "docs", "large"]]
    ask = [["ask", 2, 1, "docs", "large"], ["deliver", 1, 2], ["lose", 1, 2]]
    return repeated_steps([1, 2], [[1, 2]], [LARGE, SCAN] + begin + told + ask, begin + ask, limit)


def flood(limit):
    names = [f"{place:03}" for place in range(1000)]
    put = lambda second: [step for name in names for step in (["edit", 1, "docs", {"name": name, "type": 0, "modified_s": second}], ["scan", 1, "docs", name])]
    join = [step for one in range(2, 17) for step in (["connect", 1, one], ["begin", 1, one], ["begin", one, 1], ["deliver", one, 1], ["deliver", 1, one])]
    send = [["announce", 1, one, "docs"] for one in range(2, 17)]
    return repeated_steps(list(range(1, 17)), [[1, one] for one in range(2, 17)], join, put(0) + send + put(1) + send, limit)


# What stands before, the piece that is repeated, and what stands after.
CUT = '{"version":1,"cut":{"folders":['
SHARE = CUT + '{"folder":"d","devices":[{"device":1,"kind":"send-receive","index_id":1,"max":1'
SHARE_END = "}]}]"
END = '},"certificate":[]}'
RECORD = '{"name":"a","type":0,"modified_s":0,"modified_by":1,"sequence":1'
OWN = SHARE + ',"own":[' + RECORD
LINK = '{"a":1,"b":2,"up":true,"epoch":1'
STEPS = '{"version":1,"folders":[{"folder":"d","devices":[{"device":1,"kind":"send-receive","index_id":1}]}],"links":[],"steps":['
PIECES = {
    "zeros": ("[", "0", "]"),
    "unended": ("[", "0", ""),
    "singles": ("[", "[0]", "]"),
    "lists": ("[", "[" * 126 + "]" * 126, "]"),
    "objects": ("[", '{"":0}', "]"),
    "members": ('{"version":1,', '"":0', "}"),
    "rows": (CUT + ']},"certificate":[', "0", "]}"),
    "pairs": (OWN + ',"version":[', "[1,1]", "]}]" + SHARE_END + END),
    "hashes": (OWN + ',"version":[],"blocks":[', '""', "]}]" + SHARE_END + END),
    "records": (SHARE + ',"own":[', RECORD + ',"version":[]}', "]" + SHARE_END + END),
    "messages": (CUT + '],"links":[' + LINK + ',"to_a":[', '{"folder":"d","full":true,"records":[]}', "]}]" + END),
    "nodes": (SHARE + ',"store":[', '{"name":"a","type":1,"modified_s":0}', "]" + SHARE_END + END),
    "views": (SHARE + ',"views":[', '{"of":2,"index_id":0,"max":0,"records":[]}', "]" + SHARE_END + END),
    "links": (CUT + '],"links":[', LINK + "}", "]" + END),
    "steps": (STEPS, '["lose",1,2]', "]}"),
    "restarts": (STEPS, '["restart",1]', "]}"),
    "edits": (STEPS, '["edit",1,"d",{"name":"a","type":1,"modified_s":0}]', "]}"),
}


def of_pieces(kind, limit):
    before, piece, after = PIECES[kind]
    return before + ",".join([piece] * ((limit - len(before) - len(after) + 1) // (len(piece) + 1))) + after


def escapes(limit):
    before, after = SHARE + ',"store":[{"name":"a","type":0,"modified_s":0,"text":"', '"}]' + SHARE_END + END
    return before + "\\u0041" * min(2**24, (limit - len(before) - len(after)) // 6) + after


KINDS = {"names": names, "repeated": repeated, "falling": falling, "contents": contents, "ahead": ahead, "unknown": unknown, "digits": digits, "strangers": strangers, "nested": nested, "twice": twice, "scans": scans, "crowded": crowded, "asks": asks, "flood": flood}
TEXTS = {"escapes": escapes, **{kind: functools.partial(of_pieces, kind) for kind in PIECES}}

if len(sys.argv) != 3 or sys.argv[1] not in {**KINDS, **TEXTS}:
    sys.exit(f"usage: make_hostile.py {'|'.join([*KINDS, *TEXTS])} MEGABYTES")
kind, limit = sys.argv[1], int(float(sys.argv[2]) * 1_000_000)
sys.stdout.write(TEXTS[kind](limit) if kind in TEXTS else text_of(KINDS[kind](limit)))
