"""The verdict on a cut and its certificate: the twelve reasons, and all that fails."""

import hashlib

from placed import each_message
from things import block_size_of


def content(entry):
    if entry["deleted"]:
        return "deleted"
    if entry["kind"] == 0:
        return [(size, digest) for size, digest in zip(block_sizes(entry["size"]), entry["hashes"])]
    return "directory" if entry["kind"] == 1 else entry["target"]


def block_sizes(size):
    block = block_size_of(size)
    return [min(block, size - start) for start in range(0, size, block)] or [0]


def content_of_node(item):
    if item is None:
        return "deleted"
    if item["kind"] == 0:
        block = block_size_of(len(item["bytes"]))
        starts = range(0, len(item["bytes"]), block) or [0]
        pieces = [item["bytes"][start:start + block] for start in starts]
        return [(len(piece), hashlib.sha256(piece).digest()) for piece in pieces]
    return "directory" if item["kind"] == 1 else item["target"]


def is_at_most(version, other):
    return all(value <= other.get(device, 0) for device, value in version.items())


def is_below(version, other):
    return is_at_most(version, other) and not is_at_most(other, version)


def is_clean(item, own):
    if item is None or own is None or own["deleted"]:
        return item is None and (own is None or own["deleted"])
    if item["kind"] != own["kind"]:
        return False
    if item["kind"] == 4:
        return item["target"] == own["target"]
    times = (item["seconds"], item["nanoseconds"]) == (own["seconds"], own["nanoseconds"])
    return item["kind"] == 1 or (times and len(item["bytes"]) == own["size"])


def choice(chooser, candidates):
    """The best of these pairs of device and record, for this device."""
    valid = [one for one in candidates if not one[1]["invalid"]]
    left = [one for one in valid if not any(is_below(one[1]["version"], other[1]["version"]) for other in valid)]
    rank = lambda one: (one[1]["deleted"], -one[1]["seconds"], -one[1]["nanoseconds"], one[1]["modified_by"],
                        one[0] != chooser, one[0])
    return min(left, key=rank, default=None)


def by_name(entries):
    """Lists of records, by their name."""
    made = {}
    for entry in entries:
        made.setdefault(entry["name"], []).append(entry)
    return made


class Device:
    """What a device has of a folder."""

    def __init__(self, one):
        self.number = one["device"]
        self.own = {entry["name"]: entry for entry in one["own"]}
        self.store = {item["name"]: item for item in one["store"]}
        self.viewed = by_name(entry for item in one["views"] for entry in item["records"])
        self.pulls = by_name(one["pulls"])
        self.coming = by_name(())

    def known(self):
        foreign = [entry for part in (self.viewed, self.coming, self.pulls) for entries in part.values()
                   for entry in entries]
        return set(self.own) | set(self.store) | {entry["name"] for entry in foreign if not entry["invalid"]}

    def is_harmless(self, entry, winner):
        own = self.own.get(entry["name"])
        return (entry["invalid"] or content(entry) == content(winner)
                or (own is not None and is_below(entry["version"], own["version"])))

    def are_harmless(self, part, name, winner):
        return all(self.is_harmless(entry, winner) for entry in part.get(name, ()))


DEVICE_REASONS = [
    ("RecordMissing", lambda device, name, winner: name in device.own or winner["deleted"]),
    ("RecordDiffers", lambda device, name, winner: name not in device.own or device.own[name]["invalid"]
     or content(device.own[name]) == content(winner)),
    ("LocalOnly", lambda device, name, winner: name not in device.own or not device.own[name]["invalid"]),
    ("StoreDiffers", lambda device, name, winner: content_of_node(device.store.get(name)) == content(winner)),
    ("StoreUnclean", lambda device, name, winner: is_clean(device.store.get(name), device.own.get(name))),
    ("ViewAhead", lambda device, name, winner: device.are_harmless(device.viewed, name, winner)),
    ("FlightAhead", lambda device, name, winner: device.are_harmless(device.coming, name, winner)),
    ("PullAhead", lambda device, name, winner: device.are_harmless(device.pulls, name, winner)),
]


REASONS = ["CertificateOrder", "NameMissing", "NameUnknown", "NotWinner", *(reason for reason, _ in DEVICE_REASONS)]


class Cut:
    """The devices of each folder, folders and devices rising."""

    def __init__(self, read, device=Device):
        self.folders = {folder["folder"]: sorted(map(device, folder["shares"]), key=lambda one: one.number)
                        for folder in sorted(read["folders"], key=lambda folder: folder["folder"])}
        coming = {}
        for _, receiver, item in each_message(read):
            coming.setdefault((item["folder"], receiver), []).extend(item["records"])
        for folder, devices in self.folders.items():
            for device in devices:
                device.coming = by_name(coming.get((folder, device.number), ()))
        self.names = {folder: set().union(*(device.known() for device in devices))
                      for folder, devices in self.folders.items()}

    def known(self, folder):
        return self.names.get(folder, set())

    def winner(self, folder, name):
        devices = self.folders.get(folder, [])
        candidates = [(device.number, device.own[name]) for device in devices if name in device.own]
        return choice(devices[0].number, candidates) if candidates else None

    def first_fault(self, rows):
        """The first reason that fails, with folder, name and device; None where the cut is settled."""
        keys = [(row["folder"], row["record"]["name"]) for row in rows]
        for before, key in zip(keys, keys[1:]):
            if not before < key:
                return "CertificateOrder", *key, None
        with_row = set(keys)
        for folder in self.folders:
            for name in sorted(self.known(folder)):
                if (folder, name) not in with_row:
                    return "NameMissing", folder, name, None
        for folder, name in keys:
            if name not in self.known(folder):
                return "NameUnknown", folder, name, None
        for row, (folder, name) in zip(rows, keys):
            if self.winner(folder, name) != (row["device"], row["record"]):
                return "NotWinner", folder, name, None
        return self.first_failing(DEVICE_REASONS, rows)

    def first_failing(self, reasons, rows):
        """The first of these reasons that fails at a device, at the first row and device; None where all hold."""
        for reason, holds in reasons:
            for row in rows:
                folder, name = row["folder"], row["record"]["name"]
                for device in self.folders[folder]:
                    if not holds(device, name, row["record"]):
                        return reason, folder, name, device.number
        return None

    def all_faults(self, rows, reasons=tuple(DEVICE_REASONS)):
        """Each reason that fails, with each folder, name and device at which it does: by reason, then by these. At a
        device these reasons are asked."""
        keys = [(row["folder"], row["record"]["name"]) for row in rows]
        orders = [key for before, key in zip(keys, keys[1:]) if not before < key]
        found = [("CertificateOrder", *key, None) for key in orders[:1]]
        found += [("NameMissing", folder, name, None) for folder in self.folders
                  for name in self.known(folder) - {name for one, name in keys if one == folder}]
        for row, (folder, name) in zip(rows, keys):
            if name not in self.known(folder):
                found.append(("NameUnknown", folder, name, None))
            if self.winner(folder, name) != (row["device"], row["record"]):
                found.append(("NotWinner", folder, name, None))
            found += [(reason, folder, name, device.number) for device in self.folders.get(folder, [])
                      for reason, holds in reasons if not holds(device, name, row["record"])]
        order = REASONS[:4] + [reason for reason, _ in reasons]
        return sorted(set(found), key=lambda one: (order.index(one[0]), *one[1:3], one[3] or 0))
