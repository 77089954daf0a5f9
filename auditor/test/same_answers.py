#!/usr/bin/env python3
"""Whether two programs `syncthing-audit` give the same answers: random folders are made, as parts of up to five devices, and both answer to each
with --json, by a syncaudit of its own each. By hand, as after a change of how syncaudit is asked:

    auditor/test/same_answers.py OLD OLD_SYNCAUDIT NEW NEW_SYNCAUDIT [COUNT [FIRST]]

The number of a folder makes it again. Of the first folder whose answers differ both stand on standard output, with its parts' directory.
"""

import base64
import gzip
import json
import os
import random
import shutil
import subprocess
import sys
import tempfile
from collections import Counter
from concurrent.futures import ThreadPoolExecutor
from pathlib import Path

BLOCK = 128 << 10
FOLDER = "docs"
ALPHABET = "ABCDEFGHIJKLMNOPQRSTUVWXYZ234567"
NAMES = ["a", "a b", "b\\c", "c\n", "d", "d/\"<e>", "e.sync-conflict-20261126-170000-ABCDEFG.txt", "ü", "ü/\x7f", "z"]
DIRECTORY, SYMLINK = 1, 4


def check_character(letters):
    """The character that Syncthing puts behind 13 letters of an id."""
    factor, total = 1, 0
    for letter in letters:
        value = factor * ALPHABET.index(letter)
        factor = 3 - factor
        total += value // 32 + value % 32
    return ALPHABET[-total % 32]


def device_id(number):
    """The id of a device of this number."""
    text = base64.b32encode(number.to_bytes(8, "big") + bytes(24)).decode().rstrip("=")
    whole = "".join(group + check_character(group) for group in (text[at:at + 13] for at in range(0, 52, 13)))
    return "-".join(whole[at:at + 7] for at in range(0, 56, 7))


class Draw:
    """Draws what devices have of a folder: in some folders all is in step, in others much is wrong."""

    def __init__(self, seed):
        self.random = random.Random(seed)
        self.share = self.random.choice([0, 0.02, 0.08, 0.3])
        self.count = self.random.choice([1, 2, 2, 3, 3, 4, 5])
        self.has_behind = self.random.random() < 0.3
        self.sequence = 0

    def happens(self, share=1.0):
        return self.random.random() < self.share * share

    def content(self):
        size = self.random.choice([0, 5, 5, 3 * BLOCK])
        return {"size": size, "block_size": BLOCK << self.random.randrange(2), "hash": f"{self.random.randrange(3):02x}" + 62 * "0"}

    def record(self):
        """A record without a sequence."""
        made = {"type": 0, "s": 1000 + self.random.randrange(2), "by": 1 + self.random.randrange(2),
                "version": [[1000, 3 + self.random.randrange(3)], [2000, 1 + self.random.randrange(2)]]}
        kind = self.random.randrange(8)
        if kind == 0:
            made["deleted"] = True
        elif kind == 1:
            made["type"] = DIRECTORY
        elif kind == 2:
            made |= {"type": SYMLINK, "target": self.random.choice(["here", "<\"there\">", 900 * "f"]), "s": 0}
        else:
            made["content"] = self.content()
        if self.random.random() < 0.2:
            made["permissions"] = self.random.choice([0o644, 0o600])
        return made

    def older(self, record):
        """What the record may have been before."""
        (first, value), second = record["version"][:2]
        was = record | {"version": [[first, value - 1], second]}
        return was | {"content": self.content()} if "content" in was and self.random.random() < 0.5 else was

    def changed(self, record, share=1.0):
        """Mostly the record, else another one or none."""
        if record is None or self.happens(share / 3):
            return None
        drawn = self.record() if self.happens(share) else self.older(record) if self.happens(share) else record
        return drawn | {"invalid": True} if self.happens(share / 3) else drawn

    def node(self, own):
        """What stands on a disk: mostly what is recorded."""
        own = self.record() if own is None or self.happens() else own
        if own.get("deleted") or self.happens(1 / 3):
            return None
        made = {"type": own["type"], "s": own["s"], "permissions": own.get("permissions", 0o644)}
        if "target" in own:
            made["target"] = own["target"]
        if "content" in own:
            made |= {"size": own["content"]["size"], "contents": [own["content"]]}
            if self.happens():
                other = BLOCK if own["content"]["block_size"] != BLOCK else 2 * BLOCK
                made["contents"] = [self.content() | {"size": made["size"], "block_size": other}, own["content"]]
            if self.happens(1 / 3):
                made["lost"] = "input/output error"
        if self.happens():
            made["permissions"] = 0o600
        return made

    def numbered(self, record, sequence):
        return None if record is None else record | {"sequence": sequence}

    def name(self, name):
        """What each device has of a name; nothing where it has nothing."""
        usual = self.record()
        self.sequence += 100
        dues = [self.older(usual) if self.has_behind and at == self.count - 1 > 0 and self.random.random() < 0.5 else usual for at in range(self.count)]
        owns = [self.numbered(self.changed(due), self.sequence + at) for at, due in enumerate(dues)]
        rows = []
        for at in range(self.count):
            node = self.node(owns[at]) if owns[at] or self.random.random() < 0.3 * (self.share > 0) else None
            views = [(view, self.seen(owns[other], other)) for view, other in enumerate(other for other in range(self.count) if other != at)]
            made = {"name": name, "own": owns[at], "disk": node, "views": [{"view": view, "record": seen} for view, seen in views if seen]}
            if self.happens(1 / 4):
                kind = self.random.choice(["ignored", "special", "unreadable", "damaged", "records"])
                made["out"] = [{"kind": kind, "why": "it is so", "bytes": 7}]
            rows.append({key: value for key, value in made.items() if value} if len(made) > 1 and any(made[key] for key in made if key != "name") else None)
        return rows

    def seen(self, own, other):
        """What another device's view has of an own record."""
        seen = self.numbered(self.changed(own), self.sequence + other)
        return self.numbered(self.changed(self.record()), self.sequence + 9) if seen is None and self.happens() else seen

    def parts(self):
        """The lines of the part of each device."""
        ids = [device_id(number + 1) for number in range(self.count)]
        names = sorted(self.random.sample(NAMES, self.random.randrange(len(NAMES) + 1)), key=str.encode)
        rows = [self.name(name) for name in names]
        for at, device in enumerate(ids):
            others = [other for other in ids if other != device]
            folder = {"id": FOLDER, "label": "Documents", "directory": str(at), "kind": self.random.choice(3 * ["send-receive"] + ["receive-only", "send-only"]),
                      "index_id": str(at + 1), "max": 9999, "sharing": [{"device": other, "name": other[:3]} for other in others],
                      "views": [{"device": other, "index_id": str(ids.index(other) + 1), "max": 9999} for other in others], "options": {"max_conflicts": 10}}
            head = {"version": 1, "device": device, "name": f"device{at}", "syncthing": "v1.19.2", "made": "2026-11-30T00:00:00Z", "folders": [folder], "other_folders": []}
            lines = [{"name": row[at]} for row in rows if row[at]]
            yield [head, {"begin": {"folder": FOLDER}}, *lines, {"end": {"folder": FOLDER, "names": len(lines), "bytes": 10, "max": 9999, "last": True}}]


def write_parts(seed, room):
    """The parts' files."""
    for at, lines in enumerate(Draw(seed).parts()):
        path = room / f"{at}.part"
        with gzip.open(path, "wb", compresslevel=1) as to:
            to.writelines(json.dumps(line).encode() + b"\n" for line in lines)
        yield path


def answer(program, syncaudit, parts):
    """What a program writes, what it tells as an error, and its status."""
    ran = subprocess.run([program, "check", *parts, "--json", "--jobs", "1", "--syncaudit", syncaudit], capture_output=True)
    return ran.stdout, ran.stderr, ran.returncode


def compare(seed, old, new):
    """The answers of both to a folder, and where its parts are kept if these differ."""
    room = Path(tempfile.mkdtemp(prefix="same-answers-"))
    parts = [str(path) for path in write_parts(seed, room)]
    answers = answer(*old, parts), answer(*new, parts)
    if answers[0] == answers[1]:
        shutil.rmtree(room)
    return seed, room, answers


def main():
    words = sys.argv[1:] + ["10000", "1"][len(sys.argv) - 5:]
    old, new, count, first = words[:2], words[2:4], int(words[4]), int(words[5])
    statuses, differ = Counter(), 0
    with ThreadPoolExecutor(max(1, (os.cpu_count() or 2) // 2)) as workers:
        for seed, room, answers in workers.map(lambda seed: compare(seed, old, new), range(first, first + count)):
            statuses[answers[0][2]] += 1
            if answers[0] == answers[1]:
                continue
            if differ == 0:
                for written, told, status in answers:
                    print(f"folder {seed}, parts in {room}: status {status}\n{written.decode()}{told.decode()}")
            differ += 1
    print(f"{count} folders from {first} on, by status {dict(sorted(statuses.items()))}")
    print(f"{count - differ} passed, {differ} failed")
    sys.exit(1 if differ else 0)


main()
