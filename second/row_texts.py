"""Random streams of rows, made of random documents, and the mistakes that are made in them."""

import copy
import json
import re

from documents import RAW, Documents

LONG = 1048576


def place_of(items, value):
    """The place of the value in the list, from 1, where it is put if it isn't there yet."""
    if value is None:
        return 0
    if value not in items:
        items.append(value)
    return items.index(value) + 1


def named(items, name):
    return next((item for item in items if item.get("name") == name), None)


def header_of(document):
    """The document's cut without names and messages."""
    def share(one):
        views = [view | {"records": []} for view in one.get("views", [])]
        made = {key: one[key] for key in ("device", "kind", "index_id", "max")}
        return made | ({"views": views} if views else {})
    cut = {"folders": [folder | {"devices": list(map(share, folder["devices"]))} for folder in document["cut"]["folders"]]}
    if "links" in document["cut"]:
        cut["links"] = [{key: link[key] for key in ("a", "b", "up", "epoch")} for link in document["cut"]["links"]]
    return {"version": document["version"], "cut": cut}


def names_of(folder):
    """All names in a folder, by their bytes."""
    lists = [one.get(part, []) for one in folder["devices"] for part in ("own", "store", "pulls")]
    lists += [view["records"] for one in folder["devices"] for view in one.get("views", [])]
    return sorted({item["name"] for items in lists for item in items}, key=str.encode)


def row_of(folder, name):
    records, nodes, cells = [], [], []
    for one in folder["devices"]:
        views = [[view["of"], place_of(records, named(view["records"], name))] for view in one.get("views", [])]
        own, pull = (place_of(records, named(one.get(part, []), name)) for part in ("own", "pulls"))
        cell = [one["device"], own, place_of(nodes, named(one.get("store", []), name)), pull, [view for view in views if view[1]]]
        if cell[1:] != [0, 0, 0, []]:
            cells.append(cell)
    return [folder["folder"], name, records, nodes, cells]


def rows_of(document):
    """The rows of a document's cut, in order."""
    folders = sorted(document["cut"]["folders"], key=lambda folder: folder["folder"])
    return [row_of(folder, name) for folder in folders for name in names_of(folder)]


def put(items, place, found):
    """Appends what stands at the place, if there is one."""
    if place:
        items.append(found[place - 1])


def document_of(stream):
    """The check document for which a stream stands that isn't refused."""
    header, *rows = map(json.loads, stream.removesuffix(b"\n").split(b"\n"))
    shares = {}
    for folder in header["cut"]["folders"]:
        for share in folder["devices"]:
            share |= {"own": [], "store": [], "pulls": []}
            shares[folder["folder"], share["device"]] = share
    for folder, _, records, nodes, cells in rows:
        for device, own, node, pull, known in cells:
            share = shares[folder, device]
            put(share["own"], own, records)
            put(share["store"], node, nodes)
            put(share["pulls"], pull, records)
            for view in share.get("views", []):
                put(view["records"], dict(map(tuple, known)).get(view["of"]), records)
    return json.dumps(header | {"certificate": []}).encode()


def without_messages(document):
    """The document as a stream can say it."""
    made = copy.deepcopy(document)
    for link in made["cut"].get("links", []):
        link |= {"to_a": [], "to_b": []}
    return made


class Streams:
    """Random streams."""

    def __init__(self, seed):
        self.made = Documents(seed)
        self.random = self.made.random

    def happens(self, share):
        return self.made.happens(share)

    def document(self):
        """A document whose records have a sequence each, as a stream's may have, and no message."""
        return without_messages(self.made.document())

    def mistake(self, tree):
        """Makes one that only a stream can have."""
        choice = self.random.random()
        if choice < 0.15 and len(tree) > 2:
            here, there = (self.random.randrange(1, len(tree)) for _ in range(2))
            tree[here], tree[there] = tree[there], tree[here]
        elif choice < 0.25 and len(tree) > 1:
            place = self.random.randrange(1, len(tree))
            tree.insert(place, copy.deepcopy(tree[place]))
        elif choice < 0.35:
            self.give_header_a_name(tree)
        elif len(tree) > 1:
            self.misplace(self.random.choice(tree[1:]))

    def give_header_a_name(self, tree):
        """A member that a header may not have, though a document's cut may."""
        share = self.random.choice(self.random.choice(tree[0]["cut"]["folders"])["devices"])
        part = self.random.choice(["own", "store", "pulls"])
        record = self.made.record("a")
        share[part] = [self.made.node(record | {"type": 1})] if part == "store" else [record]

    def misplace(self, row):
        """Another number at one of the places, or another list of views or devices."""
        cell = self.random.choice(row[4]) if row[4] else None
        if cell is None:
            return
        choice = self.random.randrange(6)
        if choice == 0:
            cell[self.random.randrange(4)] = self.random.choice([0, 1, 2, 3, 4, 4096, 4097, 2**64 - 1, 2**64, -1])
        elif choice == 1:
            row[4].append(copy.deepcopy(cell))
        elif choice == 2:
            cell[4] += [copy.deepcopy(self.random.choice(cell[4]))] if cell[4] else [[self.random.randint(0, 4), self.random.randint(0, 2)]]
        elif choice == 3 and row[2]:
            self.random.choice(row[2]).update(self.random.choice([{"sequence": 0}, {"sequence": 9}, {"name": "other"}, {"invalid": True}]))
        elif choice == 4:
            many = self.random.choice([cell[4], row[4]])
            many += copy.deepcopy(many[:1] or [[1, 1]] if many is cell[4] else [cell]) * self.random.randint(13, 17)
        else:
            row[4] = [[cell[0], 0, 0, 0, []]]

    def line(self, value):
        text = re.sub('"@(?!@)', '"', json.dumps(value, ensure_ascii=self.happens(0.5)))
        return re.sub('"@@([0-9]+)@@"', lambda mark: RAW[int(mark[1])].replace("\n", " "), text).encode()

    def written(self, tree):
        lines = [self.line(value) for value in tree]
        if self.happens(0.01):
            place = self.random.randrange(len(lines))
            lines[place] = lines[place] + b" " * (LONG - len(lines[place]) + self.random.randint(0, 1))
        made = b"\n".join(lines) + (b"" if self.happens(0.3) else b"\n")
        return self.made.with_slip(made) if self.happens(0.05) else made

    def bytes(self):
        """A stream; in two of five a mistake or more was made."""
        document = self.document()
        tree = [header_of(document), *rows_of(document)]
        for _ in range(self.random.choice([0, 0, 0, 0, 1, 2])):
            self.mistake(tree)
        return self.written(self.made.with_mistake(tree) if self.happens(0.15) else tree)
