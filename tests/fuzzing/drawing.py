"""Documents drawn at random from those of `examples/`: changed as trees, as bytes, or both; and streams of rows. The mistakes in
trees are those of the second reading (`second/documents.py`, `second/row_texts.py`)."""

import json
import sys
from pathlib import Path

TOP = Path(__file__).resolve().parents[2]
sys.path.insert(0, str(TOP / "second"))

from documents import holder_of  # noqa: E402
from row_texts import Streams  # noqa: E402

# Bytes that mean something to a reader of JSON, of names and of numbers.
WORDS = [b'{', b'}', b'[', b']', b',', b':', b'"', b'\\', b'\\u0000', b'\\ud800', b'\0', b'\xff', b'\xc3\xa9', b'-', b'0',
         b'e', b'.', b'1e999', b'null', b'true', b'false', b'{}', b'[]', b'""', b'"..":1', b'18446744073709551616',
         b'9223372036854775807', b'9223372036854775808', b'-9223372036854775809', b'4294967296', b'16777217', b'65536']


def read(path):
    """A document's tree, if its bytes have one that is an object and can be written again."""
    try:
        tree = json.loads(path.read_bytes())
        json.dumps(tree, ensure_ascii=False).encode()
    except ValueError:
        return None
    return tree if isinstance(tree, dict) else None


class Drawing:
    """Documents by a seed, each with whether it is a scenario."""

    def __init__(self, seed):
        self.streams = Streams(seed)
        self.made = self.streams.made
        self.random = self.made.random
        paths = sorted((TOP / "examples").rglob("*.json"))
        self.texts = [path.read_bytes() for path in paths]
        trees = [tree for tree in map(read, paths) if tree]
        self.checks = [tree for tree in trees if "steps" not in tree]
        self.scenarios = [tree for tree in trees if isinstance(tree.get("steps"), list)]
        self.steps = [step for tree in self.scenarios for step in tree["steps"]]

    def tree(self, is_scenario):
        """A tree with up to four mistakes."""
        tree = json.loads(json.dumps(self.random.choice(self.scenarios if is_scenario else self.checks)))
        if is_scenario:
            for _ in range(self.random.choice([0, 0, 1, 5, 40])):
                tree["steps"].insert(self.random.randint(0, len(tree["steps"])), self.random.choice(self.steps))
        for _ in range(self.random.choice([0, 1, 1, 2, 4])):
            tree = self.made.with_mistake(tree) if tree else tree
        return tree

    def grown(self, tree):
        """The tree with an item of some list, or a letter of some text, very often."""
        places = [path for path in self.made.places(tree) if isinstance(holder_of(tree, path), list)
                  or isinstance(holder_of(tree, path)[path[-1]], str)]
        if places:
            path = self.random.choice(places)
            holder, key, often = holder_of(tree, path), path[-1], self.random.choice([20, 300, 5000])
            if isinstance(holder, list):
                holder[key:key] = [holder[key]] * often
            else:
                holder[key] += "x" * often
        return tree

    def place(self, data):
        return self.random.randint(0, len(data))

    def slipped(self, data):
        """The bytes with a bit turned, a word put in or over others, a piece left out, said twice or of another document."""
        here, there = sorted((self.place(data), self.place(data)))
        word, other = self.random.choice(WORDS), self.random.choice(self.texts)
        piece = other[self.place(other):][:self.random.choice([1, 8, 64, 1000])]
        turned = bytes([data[here] ^ 1 << self.random.randrange(8)]) if here < len(data) else b""
        return self.random.choice([
            data[:here] + turned + data[here + 1:], data[:here] + word + data[here:],
            data[:here] + word + data[here + len(word):], data[:here] + data[there:], data[:here] + data[here:there] * 2
            + data[there:], data[:here] + piece + data[here:], data[:here] + piece + data[there:]])

    def document(self):
        """The bytes of one, and whether it began as a scenario."""
        is_scenario = self.made.happens(0.35)
        if not is_scenario and self.made.happens(0.25):
            data = self.made.bytes()
        elif self.made.happens(0.15):
            is_scenario, data = self.made.happens(0.5), self.random.choice(self.texts)
        else:
            tree = self.tree(is_scenario)
            data = self.made.written(self.grown(tree) if self.made.happens(0.03) else tree)
        return self.with_slips(data), is_scenario

    def with_slips(self, data):
        """The bytes with some slips, most often with none."""
        for _ in range(self.random.choice([0, 0, 0, 0, 1, 1, 2, 5])):
            data = self.slipped(data)
        return data

    def stream_or_document(self):
        """The bytes of one, and a command that is to read it."""
        if self.made.happens(0.15):
            return self.with_slips(self.streams.bytes()), "rows"
        document, is_scenario = self.document()
        return document, "run" if is_scenario else "check"
