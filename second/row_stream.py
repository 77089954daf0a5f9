"""A second reading of streams of rows (docs/rows.md): what `syncaudit rows`, with `--firm`, `--converge` and `--explain` too, should write
of one, but for what is indented, and its exit status."""

import converge
import firm
import json_text
import prevails
import reading
import things
import under_winners
import verdict
from cluster.cut import certify_part
from placed import fits_kind, is_well_formed
from reports import fault_line, refusal, written
from shapes import IS_RECORD, is_list, is_node, is_sized_record, is_text, is_whole
from things import Fault, within

MOST_LINE = 1048576
MOST_PLACE = 4096
MOST_DEVICES = 16
IS_RECORD_OF = {1: IS_RECORD, 2: is_sized_record}


def is_items(*shapes):
    """Whether a value is a list of just these items."""
    return lambda value: (isinstance(value, list) and len(value) == len(shapes)
                          and all(shape(item) for shape, item in zip(shapes, value)))


IS_CELL = is_items(is_whole, is_whole, is_whole, is_whole, is_list(is_items(is_whole, is_whole)))


def is_row(version, value):
    return is_items(is_text, is_text, is_list(IS_RECORD_OF[version]), is_list(is_node), is_list(IS_CELL))(value)


# ---- one line

def lines_of(stream):
    """The lines, of which the last may have no end; a stream without bytes is one line."""
    lines = stream.split(b"\n")
    return lines[:-1] if len(lines) > 1 and not lines[-1] else lines


def value_of(line):
    if len(line) > MOST_LINE:
        raise Fault(184)
    try:
        return json_text.value_of(line)
    except json_text.NotJson:
        raise Fault(181) from None


def read_header(line):
    """The cut of a document, without names and messages."""
    value_of(line)
    header = reading.read_cut(line)
    shares = [share for folder in header["folders"] for share in folder["shares"]]
    if (any(share["own"] or share["store"] or share["pulls"] for share in shares)
            or any(view["records"] for share in shares for view in share["views"])
            or any(link["to_a"] or link["to_b"] for link in header["links"])):
        raise Fault(183)
    return header


def read_cell(value):
    device, own, node, pull, views = value
    return {"device": within(device, 1, things.U64), "own": within(own, 0, MOST_PLACE), "node": within(node, 0, MOST_PLACE),
            "pull": within(pull, 0, MOST_PLACE),
            "views": [(within(of, 1, things.U64), within(place, 1, MOST_PLACE)) for of, place in views]}


def read_things(version, value):
    """The row that a text says, each thing inside its range."""
    if not is_row(version, value):
        raise Fault(183)
    folder, name, records, nodes, cells = value
    row = {"folder": things.folder_name(folder), "name": things.file_name(name),
           "records": [things.record(one, version) for one in records],
           "nodes": [things.node(one, version) for one in nodes], "cells": list(map(read_cell, cells))}
    within(len(cells), 0, MOST_DEVICES)
    for cell in row["cells"]:
        within(len(cell["views"]), 0, MOST_DEVICES)
        for place in (cell["own"], cell["pull"], *(place for _, place in cell["views"])):
            within(place, 0, len(row["records"]))
        within(cell["node"], 0, len(row["nodes"]))
    things.passed(any(cell["own"] or cell["node"] or cell["pull"] or cell["views"] for cell in row["cells"]), row)
    return row


def find_twice(row, last):
    here, name = row["folder"], row["name"]
    if last is not None and not last < (here, name):
        raise Fault(185, here, None, name)
    seen = set()
    for cell in row["cells"]:
        viewed = [of for of, _ in cell["views"]]
        if cell["device"] in seen or len(set(viewed)) < len(viewed):
            raise Fault(185, here, cell["device"], name)
        seen.add(cell["device"])


def shares_of(header, folder):
    """The devices that share a folder, in rising order."""
    shares = [share for one in header["folders"] if one["folder"] == folder for share in one["shares"]]
    return {share["device"]: share for share in sorted(shares, key=lambda share: share["device"])}


def find_unshared(row, shares):
    for cell in row["cells"]:
        share = shares.get(cell["device"])
        if share is None or not {of for of, _ in cell["views"]} <= {view["of"] for view in share["views"]}:
            raise Fault(186, row["folder"], cell["device"], row["name"])


def find_bad(row):
    place = row["folder"], None, row["name"]
    if not all(is_well_formed(one) and one["name"] == row["name"] for one in row["records"]):
        raise Fault(187, *place)
    if not all(fits_kind(one) and one["name"] == row["name"] for one in row["nodes"]):
        raise Fault(187, *place)
    for cell in row["cells"]:
        if cell["pull"] and at(row["records"], cell["pull"])["invalid"]:
            raise Fault(187, row["folder"], cell["device"], row["name"])


def at(items, place):
    return items[place - 1]


def find_bad_sequence(row, shares):
    cells = {cell["device"]: cell for cell in row["cells"]}
    for device, share in shares.items():
        if device in cells:
            cell = cells[device]
            greatest = {view["of"]: view["max"] for view in share["views"]}
            numbered = [(place, greatest[of]) for of, place in cell["views"]]
            numbered += [(cell["own"], share["max"])] if cell["own"] else []
            if not all(1 <= at(row["records"], place)["sequence"] <= most for place, most in numbered):
                raise Fault(188, row["folder"], device, row["name"])


def read_row(header, last, line):
    """The row of a line, behind one of this folder and name."""
    row = read_things(header["version"], value_of(line))
    shares = shares_of(header, row["folder"])
    find_twice(row, last)
    find_unshared(row, shares)
    find_bad(row)
    find_bad_sequence(row, shares)
    return row


# ---- the cut

def share_with(share, row):
    """What a device has, with what the row says of it."""
    cell = next((cell for cell in row["cells"] if cell["device"] == share["device"]), None)
    if cell is None:
        return share
    known = dict(cell["views"])
    records = lambda place: [at(row["records"], place)] if place else []
    return share | {
        "own": share["own"] + records(cell["own"]), "store": share["store"] + ([at(row["nodes"], cell["node"])] if cell["node"] else []),
        "pulls": share["pulls"] + records(cell["pull"]),
        "views": [view | {"records": view["records"] + records(known.get(view["of"]))} for view in share["views"]],
    }


def cut_with(header, rows):
    """The cut for which the header and the rows stand."""
    folders = header["folders"]
    for row in rows:
        folders = [folder | {"shares": [share_with(share, row) for share in folder["shares"]]}
                   if folder["folder"] == row["folder"] else folder for folder in folders]
    return header | {"folders": folders}


def first_fault(read, aim):
    """The first known name without a winner, or else the first reason that fails under the winners; None where it is what is asked.
    Or the first reason that keeps it from converging."""
    if aim == "converging":
        return next(iter(all_faults(read, aim)), None)
    rows, without = certify_part(read)
    if without:
        return "NotWinner", *without[0], None
    cut = verdict.Cut(read)
    return cut.first_fault(rows) if aim == "settled" else firm.first_fault(cut, rows)


def all_faults(read, aim):
    """All that fails under the winners, in order; a name without a winner fails as that. Or all that keeps it from converging."""
    if aim == "converging":
        return converge.all_faults(verdict.Cut(read, prevails.Sharer))
    reasons = verdict.DEVICE_REASONS if aim == "settled" else (*verdict.DEVICE_REASONS, *firm.FIRM_REASONS)
    return map(under_winners.as_unwon, verdict.Cut(read).all_faults(certify_part(read)[0], tuple(reasons)))


def faults_at(read, aim, explain):
    """What is told of the one name of a cut: all that fails where it is explained, or else the first."""
    if explain:
        return list(all_faults(read, aim))
    fault = first_fault(read, aim)
    return [fault] if fault else []


def ending(header, rows, aim):
    """The lines behind the names, and the exit status."""
    read = cut_with(header, rows)
    fault = first_fault(read, aim)
    if aim == "converging":
        return converge.report_of(verdict.Cut(read, prevails.Sharer), fault)
    told = b"not %s: %s" % (aim.encode(), fault_line(*fault)) if fault else aim.encode()
    return [told, *counts(header, rows)], 1 if fault else 0


def counts(header, rows):
    for folder in sorted(header["folders"], key=lambda folder: folder["folder"]):
        here = [row for row in rows if row["folder"] == folder["folder"]]
        deleted = sum(not any(cell["node"] for cell in row["cells"]) for row in here)
        yield b"folder %s: %d names, %d deleted, %d devices" % (folder["folder"], len(here), deleted, len(folder["shares"]))


# ---- the stream

def read_stream(stream, told):
    """The header and the rows of a stream; `told` is called with each row as soon as it is read. The fault of a line comes with the
    line's number."""
    header, rows = None, []
    for number, line in enumerate(lines_of(stream), 1):
        try:
            if header is None:
                header = read_header(line)
            else:
                rows.append(read_row(header, (rows[-1]["folder"], rows[-1]["name"]) if rows else None, line))
                told(header, rows[-1])
        except Fault as fault:
            fault.line = number
            raise
    return header, rows


def answer(stream, aim="settled", explain=False):
    """What `syncaudit rows` should write, and its exit status; where `aim` is `firm`, `syncaudit rows --firm`, where it is
    `converging`, `--converge`, and where it explains, `--explain`, but for what is indented."""
    lines = []

    def tell(header, row):
        lines.extend(fault_line(*fault) for fault in faults_at(cut_with(header, [row]), aim, explain))

    try:
        header, rows = read_stream(stream, tell)
    except Fault as fault:
        lines.append(b"line %d: %s" % (fault.line, refusal(fault)[0][0]))
        return written(lines, 2)
    end, status = ending(header, rows, aim)
    return written([*lines, *end], status)
