"""JSON texts, read by the grammar of RFC 8259, with what the crate serde_json refuses beyond it: more than 127 brackets one
in another, half of a surrogate pair, and a number that is too large for a float. All of this counts wherever it stands, in
a member that is dropped too. Of a member that stands twice the last value stays.

Rust's serde_json, as it is by default, reads a number in two roundings, and so takes some for too large that a float just
holds, as 1.7976931348623158e308; that of the Rattle kit rounds once, and so does this.
"""

import math
import re

MOST_DEPTH = 127
U64 = 2**64 - 1
SPACE = re.compile(r"[ \t\n\r]*")
STRING = re.compile(r'"([^"\\\x00-\x1f]*(?:\\(?:["\\/bfnrt]|u[0-9A-Fa-f]{4})[^"\\\x00-\x1f]*)*)"')
NUMBER = re.compile(r"(-?(?:0|[1-9][0-9]*))((?:\.[0-9]+)?(?:[eE][+-]?[0-9]+)?)")
WORD = re.compile(r"true|false|null")
WORDS = {"true": True, "false": False, "null": None}
ESCAPE = re.compile(r"\\(?:u(....)|(.))")
ESCAPES = {"b": "\b", "f": "\f", "n": "\n", "r": "\r", "t": "\t"}


class NotJson(Exception):
    """Why bytes aren't read."""


class OtherNumber:
    """A number with a fraction or an exponent, -0, or one beyond 64 bits."""


def escaped(found):
    """The character or the half of a surrogate pair that an escape stands for."""
    digits, letter = found.groups()
    return chr(int(digits, 16)) if digits else ESCAPES.get(letter, letter)


def unescaped(text):
    """What a string's text stands for; halves of surrogate pairs are joined, and none is left."""
    if "\\" not in text:
        return text
    try:
        return ESCAPE.sub(escaped, text).encode("utf-16-le", "surrogatepass").decode("utf-16-le")
    except UnicodeDecodeError:
        raise NotJson("half of a surrogate pair") from None


def number_of(whole, rest):
    """The whole number of 64 bits that this is, or that it is another."""
    if math.isinf(float(whole + rest)):
        raise NotJson("a number too large for a float")
    if rest or whole == "-0" or not -(2**63) <= int(whole) <= U64:
        return OtherNumber()
    return int(whole)


class Reader:
    """Reads a text from its front."""

    def __init__(self, text):
        self.text = text
        self.at = 0

    def ahead(self):
        """The next character that is no space, empty at the end."""
        self.at = SPACE.match(self.text, self.at).end()
        return self.text[self.at:self.at + 1]

    def takes(self, mark):
        """Whether this mark is next; then it is passed over."""
        is_next = self.ahead() == mark
        self.at += is_next
        return is_next

    def must_take(self, mark):
        """Passes over this mark."""
        if not self.takes(mark):
            raise NotJson(f"{mark} should be at {self.at}")

    def matched(self, pattern):
        """What the pattern finds next; it is passed over."""
        found = pattern.match(self.text, self.at)
        if not found:
            raise NotJson(f"nothing of JSON is at {self.at}")
        self.at = found.end()
        return found

    def string(self):
        """A string."""
        return unescaped(self.matched(STRING)[1])

    def value(self, depth):
        """A value inside so many brackets."""
        first = self.ahead()
        if first in ("[", "{") and depth == MOST_DEPTH:
            raise NotJson("too many brackets one in another")
        if first == "[":
            return self.items(depth + 1)
        if first == "{":
            return self.members(depth + 1)
        if first == '"':
            return self.string()
        if first in ("t", "f", "n"):
            return WORDS[self.matched(WORD)[0]]
        return number_of(*self.matched(NUMBER).groups())

    def items(self, depth):
        """The items of a list."""
        self.must_take("[")
        items = []
        if self.takes("]"):
            return items
        while True:
            items.append(self.value(depth))
            if self.takes("]"):
                return items
            self.must_take(",")

    def members(self, depth):
        """The members of an object."""
        self.must_take("{")
        members = {}
        if self.takes("}"):
            return members
        while True:
            self.ahead()
            name = self.string()
            self.must_take(":")
            members[name] = self.value(depth)
            if self.takes("}"):
                return members
            self.must_take(",")


def value_of(document):
    """The value that these bytes are."""
    try:
        reader = Reader(document.decode("utf-8"))
    except UnicodeDecodeError:
        raise NotJson("no UTF-8") from None
    value = reader.value(0)
    if reader.ahead():
        raise NotJson(f"something follows at {reader.at}")
    return value
