"""What stands in a crate's source for its callers: types and calls with their comments, and the names of contracts'
clauses."""

import re
from dataclasses import dataclass, field

ITEM = re.compile(r"(pub )?(?:const )?(fn|struct|enum|trait|type|const) (\w+)")
OWNER = re.compile(r"(?:pub )?(impl|trait)\b(?:<[^>]*>)? (?:.* for )?(\w+)")
CLAUSE = re.compile(r"\s*(requires|ensures)(?: (\w+))? \{")


@dataclass
class Item:
    """A type or a call of a crate."""

    name: str
    kind: str
    owner: str
    is_public: bool
    head: str = ""
    comment: list = field(default_factory=list)
    clauses: list = field(default_factory=list)
    does_nothing: bool = False

    @property
    def full_name(self):
        return f"{self.owner}::{self.name}" if self.owner else self.name

    @property
    def is_law(self):
        """A law is a call that takes nothing, gives nothing and does nothing: its contract is all there is of it."""
        return self.kind == "fn" and self.does_nothing and self.head.endswith("()")


def module_comment(text):
    """The lines of a module's own comment."""
    return [line[3:].removeprefix(" ") for line in text.splitlines() if line.startswith("//!")]


def ends_head(line):
    """Whether a call's body begins with this line of its signature, or there is none."""
    return line.endswith(("{", ";")) or re.search(r" \{.*\}$", line) is not None


def read_call(item, lines):
    """Reads a call's signature and the names of its clauses, from the lines that begin with it."""
    head, indent = [], re.match(r"\s*", lines[0])[0]
    for number, line in enumerate(lines):
        if number and re.match(r"\s*(requires|ensures)\b|\s*\{", line):
            break
        head.append(line.strip())
        if ends_head(line):
            break
    item.head = re.sub(r"\s*(\{.*\}|\{|;)$", "", " ".join(head)).removeprefix("pub ")
    item.head = item.head.replace("( ", "(").replace(", )", ")")
    if ends_head(head[-1]):
        item.does_nothing = head[-1].endswith("{}")
        return
    for line in lines[len(head):]:
        if line in (f"{indent}{{", f"{indent}{{}}"):
            item.does_nothing = line.endswith("{}")
            return
        found = CLAUSE.match(line)
        if found:
            item.clauses.append(found[2] or found[1])
        if line.endswith(";"):  # a trait's call that has no body
            return


def items(text):
    """The types and calls of a file, private ones too."""
    lines, found, comment, owner, is_open = text.splitlines(), [], [], "", False
    for number, line in enumerate(lines):
        bare = line.strip()
        if bare.startswith("///"):
            comment.append(bare[3:].removeprefix(" "))
            continue
        if bare.startswith("#["):
            continue
        item, block = ITEM.match(bare), OWNER.match(line)
        if item and not line.startswith("     "):
            is_public = bool(item[1]) or (is_open and bool(comment))
            is_inside = item[2] in ("fn", "const") and line.startswith(" ")
            made = Item(item[3], item[2], owner if is_inside else "", is_public, comment=comment)
            if item[2] == "fn":
                read_call(made, lines[number:])
            found.append(made)
        if block:
            owner = block[2]
            # What a trait asks for, and what a type does for a trait, is as public as the type.
            is_open = block[1] == "trait" or " for " in line
        elif line.startswith("}"):
            owner, is_open = "", False
        comment = []
    return found


def exported(text):
    """The names that a module gives on, and its public modules."""
    names, modules = set(), re.findall(r"^pub mod (\w+);", text, re.M)
    for path in re.findall(r"^pub use ([^;]+);", text, re.M):
        inner = re.search(r"\{(.*)\}", path, re.S)
        for name in (inner[1].split(",") if inner else [path]):
            names.add(re.split(r"::| as ", name.strip())[-1])
    return names - {""}, modules


def program_names(folder):
    """The names of a program's modules, which nobody calls: all that are public in their files."""
    return {item.name for file in folder.rglob("*.rt") for item in items(file.read_text())
            if item.is_public and not item.owner and (folder / "main.rt").exists()}


def public_names(folder, module="lib"):
    """The names that the callers of a crate see, by the module from which all begins, with those of its public modules."""
    file = folder / f"{module}.rt"
    if not file.exists():
        return set()
    text = file.read_text()
    names, modules = exported(text)
    names |= {item.name for item in items(text) if item.is_public and not item.owner}
    for inner in modules:
        names |= public_names(folder if module == "lib" else folder / module, inner)
    return names
