"""The faults of check documents that have a place: what stands there twice, isn't shared, or doesn't fit."""

import hashlib

from things import Fault, block_size_of

NOTHING = hashlib.sha256(b"").digest()


def each_share(read):
    for folder in read["folders"]:
        for one in folder["shares"]:
            yield folder["folder"], one["device"], one


def each_message(read):
    """Each message on its way, with its link and its receiver."""
    for one in read["links"]:
        for side, receiver in (("to_a", one["a"]), ("to_b", one["b"])):
            for item in one[side]:
                yield one, receiver, item


class Once:
    """Keys, each of which may come once."""

    def __init__(self):
        self.seen = set()

    def add(self, key, *place):
        if key in self.seen:
            raise Fault(185, *place)
        self.seen.add(key)


def find_name_twice(items, folder, device):
    names = Once()
    for item in items:
        names.add(item["name"], folder, device, item["name"])


def find_twice_in(read):
    folders = Once()
    for folder in read["folders"]:
        here = folder["folder"]
        folders.add(here, here, None, None)
        devices = Once()
        for one in folder["shares"]:
            device = one["device"]
            devices.add(device, here, device, None)
            find_name_twice(one["own"], here, device)
            find_name_twice(one["store"], here, device)
            viewed = Once()
            for item in one["views"]:
                viewed.add(item["of"], here, device, None)
                find_name_twice(item["records"], here, device)
            find_name_twice(one["pulls"], here, device)
    links = Once()
    for one in read["links"]:
        links.add((one["a"], one["b"]), None, one["a"], None)
        for _, receiver, item in each_message({"links": [one]}):
            find_name_twice(item["records"], item["folder"], receiver)


def find_unshared(read):
    sharing = {(folder, device) for folder, device, _ in each_share(read)}
    for folder, device, one in each_share(read):
        for item in one["views"]:
            if item["of"] == device or (folder, item["of"]) not in sharing:
                raise Fault(186, folder, device, None)
    for one, receiver, item in each_message(read):
        if not {(item["folder"], one["a"]), (item["folder"], one["b"])} <= sharing:
            raise Fault(186, item["folder"], receiver, None)


def is_well_formed(entry):
    if entry["deleted"] or entry["kind"] != 0:
        if entry["size"] or entry["block_size"] or entry["hashes"]:
            return False
        return bool(entry["target"]) == (entry["kind"] == 4 and not entry["deleted"])
    block = block_size_of(entry["size"])
    count = max(1, -(-entry["size"] // block))
    return (entry["block_size"] == block and len(entry["hashes"]) == count and not entry["target"]
            and (entry["size"] > 0 or entry["hashes"] == [NOTHING]))


def fits_kind(item):
    return (not item["bytes"] or item["kind"] == 0) and bool(item["target"]) == (item["kind"] == 4)


def find_bad_record(read):
    def judge(items, test, folder, device):
        for item in items:
            if not test(item):
                raise Fault(187, folder, device, item["name"])
    for folder, device, one in each_share(read):
        judge(one["own"], is_well_formed, folder, device)
        judge(one["store"], fits_kind, folder, device)
        for item in one["views"]:
            judge(item["records"], is_well_formed, folder, device)
        judge(one["pulls"], lambda entry: is_well_formed(entry) and not entry["invalid"], folder, device)
    for _, receiver, item in each_message(read):
        judge(item["records"], is_well_formed, item["folder"], receiver)
    for row in read["rows"]:
        judge([row["record"]], is_well_formed, row["folder"], row["device"])


def find_bad_sequence(read):
    def judge(items, greatest, folder, device):
        seen = set()
        for item in items:
            if not 1 <= item["sequence"] <= greatest or item["sequence"] in seen:
                raise Fault(188, folder, device, item["name"])
            seen.add(item["sequence"])
    for folder, device, one in each_share(read):
        judge(one["own"], one["max"], folder, device)
        for item in one["views"]:
            judge(item["records"], item["max"], folder, device)
    for _, receiver, item in each_message(read):
        low = 0
        for entry in item["records"]:
            if entry["sequence"] <= low:
                raise Fault(188, item["folder"], receiver, entry["name"])
            low = entry["sequence"]


def find_bad_link(read):
    devices = {device for _, device, _ in each_share(read)}
    for one in read["links"]:
        is_quiet = not one["to_a"] and not one["to_b"]
        if not one["a"] < one["b"] or not {one["a"], one["b"]} <= devices or not (one["up"] or is_quiet):
            raise Fault(189, None, one["a"], None)
