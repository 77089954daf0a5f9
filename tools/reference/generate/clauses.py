"""The index of clauses: of each public call the names of its contract's clauses, and what it asks of its caller; of each law
its sentence."""

import re


def asks(text, item):
    """Whether a call asks something of its caller."""
    contract = re.search(rf"^( *)(?:pub )?fn {item.name}\b.*?(?:^\1\{{|;$)", text, re.MULTILINE | re.DOTALL)
    return bool(contract and re.search(r"^ +requires ", contract[0], re.MULTILINE))


def sentences(comment):
    """A comment on one line, without its further paragraphs."""
    lines = comment[:comment.index("")] if "" in comment else comment
    return " ".join(lines).removesuffix(":")


def call(item, text):
    """The line of a call with a contract."""
    names = [f"`{name}`" for name in item.clauses if name not in ("requires", "ensures")]
    whole = "its contract" if "ensures" in item.clauses else ""
    said = ", ".join([*([whole] if whole else []), *names])
    return f"- `{item.full_name}`: {said}{'; has a caller’s condition' if asks(text, item) else ''}"


def law(item):
    """The line of a law."""
    return f"- law `{item.name}`: {sentences(item.comment)}"


def part(crate, sources, linked):
    """The part of a crate: its calls and laws by file; nothing where none has a contract."""
    lists = []
    for file, found in sources:
        if file.name == "examples.rt":
            continue
        text = file.read_text()
        lines = [law(item) if item.is_law else call(item, text) for item in found if item.is_law or set(item.clauses) - {"requires"}]
        if lines:
            lists.append(f"{linked(file)}\n\n" + "\n".join(lines))
    return "\n\n".join([f"## {crate}", *lists]) if lists else ""


HEAD = """# Index of clauses

What is proved, crate by crate: each public call with the names of its contract's clauses, and each law with its sentence. The
clause itself stands above the call's body, in the words of the crate's `specs/`. A contract of one clause has no name for it.
A call with a caller's condition promises nothing where that doesn't hold; all others are safe whatever they are given.
[trust.md](../trust.md) says what follows from these, and what doesn't.
"""


def index(parts):
    """The page."""
    return "\n\n".join([HEAD.rstrip(), *(text for text in parts if text)]) + "\n"
