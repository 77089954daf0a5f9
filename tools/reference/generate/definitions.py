"""What stands in a crate's specs/: its definitions, with the comment above each."""

import re
from dataclasses import dataclass

DEFINITION = re.compile(r"(?:(?:abbrev|unfoldable|opaque) )*pub (?:(?:abbrev|unfoldable|opaque|record|data) )*([^\s:({]+)")


@dataclass
class Definition:
    name: str
    comment: list


def definitions(text):
    """The comment at the head of a file, and its definitions."""
    head, found, comment, has_begun = [], [], [], False
    for line in text.splitlines():
        if line.startswith("--"):
            comment.append(line[2:].removeprefix(" "))
            continue
        if not has_begun and comment and not DEFINITION.match(line):
            head = comment
        has_begun = True
        name = DEFINITION.match(line)
        if name and not re.match(r"pub (mod|use)\b", line):
            found.append(Definition(name[1], comment))
        comment = []
    return head, found
