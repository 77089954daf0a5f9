"""What a contract's clause rests on: the definitions that it names, those that these name, and so on, by the imports of each
file of specs/."""

import re
from dataclasses import dataclass

IMPORT = re.compile(r"^(?:ghost )?use Rattle\.(\w+)\.specs\.([\w.]+)\.\{([^}]*)\};?$", re.MULTILINE)
DEFINED = re.compile(r"(?:(?:abbrev|unfoldable|opaque|pub|record|data) )*(?!use |mod |infix)([^\s:({]+)(?= .*:| *:)")
WORD = re.compile(r"[^\s()\[\]{},.;:]+")


@dataclass
class Block:
    """The lines between two empty lines of a file, without comments: mostly one definition."""

    lines: list
    names: list

    @property
    def words(self):
        return set(WORD.findall("\n".join(self.lines)))


def is_used(name, words):
    """Whether the words use the name: of one with holes, as `◌answers◌when◌`, all that stands between the holes."""
    return all(part in words for part in name.split("◌") if part)


def imports(text):
    """The names that a file imports from crates, each with its crate and module."""
    return {name.strip(): (crate, module) for crate, module, names in IMPORT.findall(text) if crate != "std"
            for name in names.split(",")}


def blocks(text):
    """The blocks of a file of definitions."""
    found = []
    for part in re.split(r"\n\s*\n", text):
        lines = [line for line in part.splitlines() if line.strip() and not line.startswith(("--", "use "))]
        names = dict.fromkeys(name[1] for line in lines if (name := DEFINED.match(line)))
        if names:
            found.append(Block(lines, list(names)))
    return found


class Specs:
    """The definitions of all crates, read as they are asked for."""

    def __init__(self, folder):
        self.folder = folder
        self.read = {}

    def at(self, crate, module):
        """The blocks and the imports of a file; none where there is no such file, as for a type of src/ or a crate of the kit."""
        if (crate, module) not in self.read:
            file = self.folder / crate / "specs" / (module.replace(".", "/") + ".antt")
            text = file.read_text() if file.exists() else ""
            self.read[crate, module] = blocks(text), imports(text)
        return self.read[crate, module]

    def used(self, words, crate, module):
        """What the words name, of the file in which they stand and of those that it imports."""
        own, imported = self.at(crate, module)
        here = [(crate, module, name) for block in own for name in block.names if is_used(name, words)]
        return here + [(*place, name) for name, place in imported.items() if is_used(name, words)]

    def closure(self, names):
        """The blocks on which these names rest, by their file, as they are met; and the types of src/ that they name."""
        found, types, waiting = {}, set(), list(names)
        while waiting:
            crate, module, name = waiting.pop(0)
            if module.startswith("declared."):
                types.add((crate, module.split(".")[1]))
                continue
            block = next((block for block in self.at(crate, module)[0] if name in block.names), None)
            if block is not None and block not in found.get((crate, module), []):
                found.setdefault((crate, module), []).append(block)
                waiting += self.used(block.words, crate, module)
        return found, types


def clause(text, function, name):
    """What a clause of a function, or the one without a name, names of the files that its own imports."""
    head = text[re.search(rf"fn {function}\b", text).start():]
    line = next(line for line in head.splitlines() if line.strip().startswith(f"ensures {name} {{".replace("  ", " ")))
    words = set(WORD.findall(line))
    return [(*place, one) for one, place in imports(text).items() if is_used(one, words)]
