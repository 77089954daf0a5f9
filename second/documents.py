"""Random check documents, the mistakes that are made in them, and documents at their limits.

A mistake in the text of a document, that no tree of JSON has, stands in the tree as a mark: a text `@@N@@` for the N-th
text of RAW, and a member's name after an `@` for one that stands twice.
"""

import copy
import hashlib
import json
import random
import re

import things
import verdict
from limits import LARGE_GROWTHS, SIZED_GROWTHS, SMALL_GROWTHS, grow

TEXTS = {hashlib.sha256(text.encode()).hexdigest(): text for text in ("hello", "abc", "")}
VERSIONS = [[[1, 1]], [[1, 2]], [[1, 1], [2, 1]], [[2, 1]], []]
NAMES = ["a", "b", "a.txt", "c d", "x\\y", "\u00e9"]
ODD_VALUES = [0, 1, -1, 2, 3, 4, 10, 64, 65, 2**63 - 1, 2**63, 2**64 - 1, 2**64, -(2**63), 1.5, True, False, None, "",
              "x", "docs", "..", "a/b", "send-only", [], {}, [1, 1], [[1, 1]], {"a": 1}, 999999999, 1000000000,
              131072, 262144, 524288, 16777216, 16777217, 536870912, 536870913, 4294967295, 4294967296, -(2**63) - 1, "0" * 64, "zz"]
ODD_TEXTS = ["", ".", "..", "...", "..b", "/", "a/b", "a//b", "/a", "a/", "./a", "a/..", "a/../b", "\0", "a\0b",
             "a\n", "\n", " ", "\x7f", "\u0080", "\ud7ff\ue000\uffff", "\U0010ffff", "docs", "docs\n", "Docs",
             "d.ocs", "d\u00f6cs", "-", "_", "x" * 64, "x" * 65, "x" * 1024, "x" * 1025, "\u00e9" * 512,
             "\u00e9" * 512 + "x", "\U0001f600" * 256, "x/" * 512, "x/" * 512 + "x", "0" * 63, "0" * 64, "0" * 65,
             "0" * 64 + "\n", "AbCdEf01" * 8, "g" * 64, "00", "0", "Ff", "0x", "00\n", " 00", "send-only"]
# The least whole number that is too large for a float: half a step above the greatest one.
BEYOND = 2**1024 - 2**970
RAW = ["-0", "0", "1.0", "1e0", "1E+2", "1e3", "1.5e1", "15e-1", "-1e1", "1e400", "-1e400", "1e308", "1e-400",
       "0e400", "9" * 310, "1" + "0" * 308, "1" + "0" * 309, str(BEYOND), str(BEYOND - 1),
       "0." + "0" * 400 + "1e401", "18446744073709551615",
       "18446744073709551616", "-9223372036854775808", "-9223372036854775809", "01", "-01", "+1", "1.", ".5", "1e",
       "0x1", "NaN", "Infinity", "-Infinity", "nul", "nulL", "True", "truefalse", "'a'", '"a', '"\\ud83d"',
       '"\\udc00"', '"\\ud83d\\ude00"', '"\\ude00\\ud83d"', '"\\ud83d\\ud83d\\ude00"', '"\\uD83Dx"', '"\\u0000"',
       '"a\\u0000b"', '"\\u00e9\\/"', '"\\q"', '"\\u12"', '"\0"', '"\x1f"', '"\x7f"', "//", "/* */ 1", "# 1", "[1,]",
       "[,]", "[1 2]", '{"a":1,}', '{"a" 1}', "{1:2}", '{"a":1,"a":2}', '{"\\ud83d":1}', '{"a":[1e400]}', "", " 1 ",
       "\t1\r\n", "\x0c1", "\u00a01"]
# Members whose values are of one sort.
SORTS = [("device", "of", "a", "b", "modified_by"), ("folder",), ("name",), ("sequence", "max", "epoch", "index_id"), ("up",),
         ("deleted", "invalid", "full"), ("type",), ("records", "own", "pulls"), ("store",), ("to_a", "to_b"), ("version",),
         ("record",)]
TEXT_MEMBERS = ("name", "target", "folder", "text", "hex")
BEFORE = [b"\xef\xbb\xbf", b"\xff\xfe", b" \t\r\n", b"\0", b",", b"[", b"//\n", b"\x0c"]
AFTER = [b"\0", b" \t\r\n", b"x", b"}", b"]", b",", b"{}", b"1", b"// end", b"\x1a", b"\xff", b"\xc2\xa0"]


class Documents:
    """Random check documents."""

    def __init__(self, seed):
        self.random = random.Random(seed)
        self.version = 1

    def happens(self, share):
        return self.random.random() < share

    def record(self, name):
        made = {"name": name, "type": self.random.choice([0, 0, 0, 1, 4]),
                "modified_s": self.random.choice([1000, 1000, 900]), "modified_by": self.random.choice([1, 2]),
                "version": self.random.choice(VERSIONS), "sequence": 1}
        if self.happens(0.2):
            made["deleted"] = True
        elif made["type"] == 0:
            digest = self.random.choice(list(TEXTS))
            made |= {"size": len(TEXTS[digest]), "blocks": [digest]}
            if self.version == 2:
                made["block_size"] = 131072
        elif made["type"] == 4:
            made["target"] = self.random.choice("xy")
        if self.happens(0.1):
            made["invalid"] = True
        return made

    def node(self, record):
        made = {"name": record["name"], "type": record["type"], "modified_s": record["modified_s"]}
        if self.happens(0.03):
            made["modified_s"] += 1
        if record["type"] == 0:
            made["text"] = TEXTS[record["blocks"][0]]
        if record["type"] == 4:
            made["target"] = record["target"]
        return made

    def records(self, base, there, same):
        """Some of the names, numbered by rising sequence, most with their usual record."""
        made = []
        for place, name in enumerate(base):
            if self.happens(there):
                record = copy.deepcopy(base[name]) if self.happens(same) else self.record(name)
                made.append(record | {"sequence": place + 1})
        return made

    def share(self, device, devices, base, calm):
        own = self.records(base, 0.95 if calm else 0.7, 0.95 if calm else 0.5)
        store = [self.node(record) for record in own if not record.get("deleted") and self.happens(0.97)]
        made = {"device": device, "kind": self.random.choice(["send-receive", "send-only", "receive-only"]),
                "index_id": 10, "max": len(base), "own": own, "store": store}
        if self.happens(0.5):
            made["views"] = [{"of": other, "index_id": self.random.choice([0, 10]), "max": len(base),
                              "records": self.records(base, 0.8, 0.9)}
                             for other in devices if other != device and self.happens(0.6)]
        if self.happens(0.3):
            made["pulls"] = [record | {"invalid": self.happens(0.03)} for record in self.records(base, 0.6, 0.8)]
        self.random.shuffle(made["own"])
        return made

    def folder(self, name, base, calm):
        devices = self.random.sample([1, 2, 3, 2**64 - 1], self.random.choice([1, 2, 2, 3]))
        return {"folder": name, "devices": [self.share(device, devices, base, calm) for device in devices]}

    def messages(self, names, base):
        return [{"folder": self.random.choice(names), "full": self.happens(0.5),
                 "records": self.records(base, 0.6, 0.85)} for _ in range(self.random.choice([0, 1, 1, 2]))]

    def links(self, folders, base):
        sharing = {folder["folder"]: {share["device"] for share in folder["devices"]} for folder in folders}
        devices = sorted(set().union(*sharing.values()))
        made = []
        for a in devices:
            for b in devices:
                names = [name for name in sharing if {a, b} <= sharing[name]]
                if a < b and self.happens(0.6):
                    up = self.happens(0.9)
                    link = {"a": a, "b": b, "up": up, "epoch": self.random.randint(0, 2)}
                    if up and (names or self.happens(0.05)):
                        names = names or list(sharing)
                        link |= {"to_a": self.messages(names, base), "to_b": self.messages(names, base)}
                    if self.happens(0.02):
                        link |= self.random.choice([{"a": b, "b": a}, {"b": a}, {"b": 9}, {"up": False}])
                    made.append(link)
        self.random.shuffle(made)
        return made

    def certificate(self, cut, version):
        """The rows of the winners, now and then with a mistake."""
        rows = rows_of(cut, version)
        if rows and self.happens(0.1):
            rows.pop(self.random.randrange(len(rows)))
        if self.happens(0.05):
            self.random.shuffle(rows)
        if rows and self.happens(0.05):
            self.random.choice(rows)["record"]["sequence"] += 1
        return rows

    def document(self):
        self.version = self.random.choice([1, 2])
        calm = self.happens(0.7)
        base = {name: self.record(name) for name in self.random.sample(NAMES, self.random.choice([1, 1, 2, 3]))}
        if calm:
            for record in base.values():
                record.pop("invalid", None)
        names = self.random.sample(["docs", "Docs", "a-b"], self.random.choice([1, 1, 1, 2]))
        folders = [self.folder(name, base, calm) for name in names]
        cut = {"folders": folders}
        if self.happens(0.6):
            cut["links"] = self.links(folders, base)
        return {"version": self.version, "cut": cut, "certificate": self.certificate(cut, self.version)}

    def places(self, value, path=()):
        if path:
            yield path
        inner = value.items() if isinstance(value, dict) else enumerate(value) if isinstance(value, list) else ()
        for key, item in inner:
            yield from self.places(item, path + (key,))

    def with_mistake(self, document):
        """The document with a mistake at a random place."""
        made = copy.deepcopy(document)
        if self.happens(0.2) and self.borrow(made):
            return made
        mistake, members = self.random.choices([(self.spoil, None), (self.rename, TEXT_MEMBERS), (self.write_raw, None),
                                                (self.write_twice, str), (self.nest, None)], [12, 2, 2, 2, 1])[0]
        paths = list(self.places(made))
        if members is TEXT_MEMBERS:
            paths = [path for path in paths if path[-1] in members or path[-2:-1] == ("blocks",)] or paths
        if members is str:
            paths = [path for path in paths if isinstance(path[-1], str)]
        path = self.random.choice(paths)
        mistake(holder_of(made, path), path[-1], len(path))
        return made

    def borrow(self, made):
        """Gives a member the value of another one of its sort, if there are two."""
        sort = self.random.choice(SORTS)
        paths = [path for path in self.places(made) if path[-1] in sort]
        if len(paths) < 2:
            return False
        here, there = ((holder_of(made, path), path[-1]) for path in self.random.sample(paths, 2))
        here[0][here[1]] = copy.deepcopy(there[0][there[1]])
        return True

    def spoil(self, holder, key, _depth):
        """Takes a value away, makes it another, or puts one beside it."""
        value = holder[key]
        mistake = self.random.randrange(4)
        if mistake == 0:
            del holder[key]
        elif mistake == 1 and is_number(value):
            holder[key] = value + self.random.choice([-1, 1])
        elif mistake == 2 and isinstance(holder, list):
            holder.insert(self.random.randint(0, len(holder)), copy.deepcopy(value))
        elif mistake == 2:
            holder[self.random.choice(["zzz", "text", "hex", "target", "blocks", "own"])] = self.odd_value()
        else:
            holder[key] = self.odd_value()

    def rename(self, holder, key, _depth):
        """Gives it another text."""
        holder[key] = self.random.choice(ODD_TEXTS)

    def write_raw(self, holder, key, _depth):
        """Gives it a text that may be no JSON."""
        holder[key] = self.raw()

    def write_twice(self, holder, key, depth):
        """Writes a member twice, the second time with any value, in any order."""
        again = f"@{key}"
        holder[again] = copy.deepcopy(holder[key])
        make = self.random.choice([None, self.spoil_again, self.rename, self.write_raw, self.nest])
        if make:
            make(holder, again, depth)
        members = list(holder.items())
        self.random.shuffle(members)
        holder.clear()
        holder.update(members)

    def spoil_again(self, holder, key, _depth):
        """Gives it another value."""
        holder[key] = self.odd_value()

    def nest(self, holder, key, depth):
        """Gives it so many brackets, one in another, that as many are around the innermost as may be, or one more."""
        value = []
        for _ in range(126 - depth + self.random.randint(0, 1)):
            value = [value] if self.happens(0.7) else {"a": value}
        holder[key] = value

    def odd_value(self):
        return copy.deepcopy(self.random.choice(ODD_VALUES))

    def raw(self):
        return f"@@{self.random.randrange(len(RAW))}@@"

    def written(self, document):
        """The document's bytes; marks become what they stand for."""
        text = re.sub('"@(?!@)', '"', json.dumps(document, ensure_ascii=self.happens(0.5)))
        return re.sub('"@@([0-9]+)@@"', lambda mark: RAW[int(mark[1])], text).encode()

    def with_slip(self, data):
        """The bytes with one of them wrong, cut off, or with some before or behind them."""
        place = self.random.randrange(len(data))
        byte = bytes([self.random.choice([self.random.randrange(256), *b'\x00",:[]{}\\/-e.0'])])
        return self.random.choice([self.random.choice(BEFORE) + data, data + self.random.choice(AFTER), data[:place],
                                   data[:place] + data[place + 1:], data[:place] + byte + data[place:],
                                   data[:place] + byte + data[place + 1:]])

    def bytes(self):
        document = self.document()
        if self.happens(0.02):
            grow(document["cut"], self.random.choice(SMALL_GROWTHS), self.random.randint(0, 1))
        if self.happens(0.002):
            grow(document["cut"], self.random.choice(LARGE_GROWTHS), self.random.randint(0, 1))
        for _ in range(self.random.choice([0, 0, 0, 1, 2])):
            document = self.with_mistake(document)
        made = self.written(document)
        return self.with_slip(made) if self.happens(0.04) else made


def holder_of(value, path):
    """What the last step of the path leads from."""
    for key in path[:-1]:
        value = value[key]
    return value


def is_number(value):
    return isinstance(value, int) and not isinstance(value, bool)


def rows_of(cut, version):
    """The rows of the winners; none where a document of this version can't have the cut."""
    try:
        read = things.cut_and_rows({"version": version, "cut": cut, "certificate": []})
    except things.Fault:
        return []
    tables = verdict.Cut(read | {"links": []})
    written = {(folder["folder"].encode(), share["device"], record["name"].encode()): record
               for folder in cut["folders"] for share in folder["devices"] for record in share.get("own", [])}
    rows = []
    for folder in tables.folders:
        for name in sorted(tables.known(folder)):
            winner = tables.winner(folder, name)
            if winner:
                record = copy.deepcopy(written[folder, winner[0], name])
                rows.append({"folder": folder.decode(), "device": winner[0], "record": record})
    return rows


def at_limits():
    """Documents each of which has something as great as it may be, and others with one more."""
    for version, growths in ((1, SMALL_GROWTHS + LARGE_GROWTHS), (2, SIZED_GROWTHS)):
        for growth in growths:
            for beyond in (0, 1):
                share = {"kind": "send-receive", "index_id": 1, "max": 0}
                cut = {"folders": [{"folder": "docs", "devices": [share | {"device": device} for device in (1, 2)]}]}
                grow(cut, growth, beyond)
                yield json.dumps({"version": version, "cut": cut, "certificate": rows_of(cut, version)}).encode()
