"""Compares what `explain --json` writes of a document with what `explain` writes, each also with `--firm` and with `--converge`:
the status, the verdict, and the reason and place of each failure, in order; and each detail with what the document says there."""

import hashlib
import json
import re
import subprocess

BLOCK = 131072

# The reasons that only `--firm` tells.
OF_FIRM = ("VersionDiffers", "ViewNotBelow", "FlightNotBelow", "PullNotBelow")


def run(program, words, document):
    with open(document, "rb") as file:
        done = subprocess.run([program, *words], stdin=file, capture_output=True)
    return done.returncode, done.stdout.decode()


def shown(name):
    """A name as the text has it."""
    escaped = [f"\\x{byte:02x}" if byte < 0x21 or byte in (0x5C, 0x7F) else None for byte in name.encode()]
    return b"".join(mark.encode() if mark else bytes([byte]) for mark, byte in zip(escaped, name.encode())).decode()


def line_of(failure):
    line = f"{failure['reason']} {failure['folder']} {shown(failure['name'])}"
    return line if failure["device"] is None else f"{line} on {failure['device']}"


def refusal_line(refused):
    line = f"refused: {refused['number']} {refused['fault']}"
    if refused["number"] < 185:
        return line
    name = "-" if refused["name"] is None else shown(refused["name"])
    folder, device = ("-" if refused[part] is None else refused[part] for part in ("folder", "device"))
    return f"{line} {folder} {device} {name}"


def lines_of(document):
    """The lines without indent that tell the same."""
    if "refused" in document:
        return [refusal_line(document["refused"])]
    failures = document["failures"]
    good = next(word for word in ("firm", "converging", "settled") if word in document)
    if "settled" in document and document["settled"] != all(failure["reason"] in OF_FIRM for failure in failures):
        return [f"settled is {document['settled']}"]
    if document[good] != (not failures):
        return [f"{good} is {document[good]}"]
    return [line_of(failure) for failure in failures] or [good]


def record_of(record):
    """A record of the document as details have it: with every member, and hashes in lower case."""
    file = record["type"] == 0 and not record.get("deleted", False)
    plain = {"block_size": BLOCK if file else 0, "deleted": False, "invalid": False, "modified_ns": 0, "size": 0, "target": ""}
    return {**plain, **record, "blocks": [block.lower() for block in record.get("blocks", [])]}


def node_of(node):
    """A node of the document as details have it: with the hashes of its blocks in place of its bytes."""
    data = node["text"].encode() if "text" in node else bytes.fromhex(node.get("hex", ""))
    blocks = [data[place : place + BLOCK] for place in range(0, max(len(data), 1), BLOCK)] if node["type"] == 0 else []
    return {
        "blocks": [hashlib.sha256(block).hexdigest() for block in blocks],
        "modified_ns": node.get("modified_ns", 0),
        "modified_s": node["modified_s"],
        "size": len(data),
        "target": node.get("target", ""),
        "type": node["type"],
    }


def named(records, name):
    """The records or nodes of a list that have the name."""
    return [record for record in records if record["name"] == name]


def said(document, failure, detail):
    """What the document says at the place of a detail: all that could stand there, and nothing where nothing does."""
    folder, name, what = failure["folder"], failure["name"], detail["what"]
    if what == "row":
        rows = document["certificate"]
        return [record_of(row["record"]) for row in rows
                if (row["folder"], row["device"], row["record"]["name"]) == (folder, detail["device"], name)]
    if what == "message":
        ends = sorted([detail["device"], detail["from"]])
        queue = "to_a" if detail["device"] == ends[0] else "to_b"
        return [record_of(record) for link in document["cut"].get("links", []) if [link["a"], link["b"]] == ends
                for message in link.get(queue, []) if message["folder"] == folder
                for record in named(message["records"], name)]
    device = next(device for shared in document["cut"]["folders"] if shared["folder"] == folder
                  for device in shared["devices"] if device["device"] == detail["device"])
    if what == "store":
        return [node_of(node) for node in named(device.get("store", []), name)]
    if what == "view":
        return [record_of(record) for view in device.get("views", []) if view["of"] == detail["from"]
                for record in named(view["records"], name)]
    return [record_of(record) for record in named(device.get("pulls" if what == "pull" else "own", []), name)]


def is_said(document, failure, detail):
    """Whether the document says what the detail tells; nothing is told where it says nothing."""
    told = detail["node"] if detail["what"] == "store" else detail["record"]
    if detail["device"] is None:
        return told is None
    there = said(document, failure, detail)
    return told in there if there else told is None


def difference(program, document):
    """What differs, if anything does."""
    asked = (["explain"], ["explain", "--firm"], ["explain", "--converge"])
    return next(filter(None, (difference_in(program, words, document) for words in asked)), "")


def difference_in(program, words, document):
    """The same of what is told for these words."""
    status, text = run(program, words, document)
    json_status, written = run(program, [*words, "--json"], document)
    if written.count("\n") != 1 or not written.endswith("\n"):
        return f"this isn't one line: {written!r}"
    try:
        told = json.loads(written)
    except ValueError:
        return f"this isn't JSON: {written!r}"
    wanted = [line for line in text.splitlines() if not line.startswith("  ")]
    if json_status != status or lines_of(told) != wanted:
        return f"with --json the status is {json_status} and it tells {lines_of(told)}, not {status}, {wanted}"
    details = [(failure, detail) for failure in told.get("failures", []) for detail in failure["details"]]
    if len(details) != len(re.findall("^  ", text, re.M)):
        return f"with --json there are {len(details)} details, and not as many as lines"
    with open(document, "rb") as file:
        source = json.load(file) if details else None
    for failure, detail in details:
        if not is_said(source, failure, detail):
            return f"of {line_of(failure)} the document doesn't say {json.dumps(detail)}"
    return ""
