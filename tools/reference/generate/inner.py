"""What stands in the wrong place of specs/: `inner/` has what private contracts alone name, in whichever crate. No public contract
and no definition outside of inner/ names anything of it; and what neither these nor other crates name stands there."""

import re

from reading import WORD, is_used
from rust import OWNER, items, program_names, public_names

USE = re.compile(r"^(\s*)(?:ghost )?use Rattle\.(\w+)\.specs\.([\w.]+)(?:\.\{([^}]*)\}| as (\w+));?$", re.MULTILINE)
TYPE = re.compile(r"^(?:pub(?:\(\w+\))? )?(?:struct|enum) (\w+)[^{;]*\{(.*?)^\}", re.MULTILINE | re.DOTALL)
DEFINES = re.compile(r"^(?:abbrev |unfoldable |opaque )*pub (?!mod |use )", re.MULTILINE)
INNER = "inner."


def uses(text):
    """The files of specs/ that a file names: of each its crate, its module, the names, and the type or trait in whose block alone
    they stand, '' where none is."""
    for found in USE.finditer(text):
        indent, crate, module, names, alias = found.groups()
        owner = owner_of(text[:found.start()]) if indent else ""
        yield crate, module, [alias] if alias else [name.split(" as ")[-1].strip() for name in names.split(",")], owner


def owner_of(before):
    """The type or trait of the block that a text begins last; '' where it begins none, as a file of proofs does."""
    return next((found[2] for found in map(OWNER.match, reversed(before.splitlines())) if found), "")


def shown_types(texts, names):
    """The types and traits of these names, those in their fields, and so on: what a caller sees of a type may rest on them."""
    fields = {name: set(WORD.findall(body)) for text in texts for name, body in TYPE.findall(text)}
    shown, left = set(), set(names)
    while left:
        one = left.pop()
        shown.add(one)
        left |= (fields.get(one, set()) & fields.keys()) - shown
    return shown


def clause_words(text, names):
    """The words in the clauses of a source file's public calls; `names` are those that the crate gives on."""
    lines, words = text.splitlines(), set()
    for item in items(text):
        if item.kind != "fn" or not item.is_public or (item.owner or item.name) not in names:
            continue
        start = next(number for number, line in enumerate(lines) if re.search(rf"\bfn {item.name}\b", line))
        for line in lines[start:]:
            if re.match(r"\s*(requires|ensures)\b", line):
                words |= set(WORD.findall(line))
            elif re.match(r"\s*\{\}?$", line):
                break
    return words


def named(crate):
    """The modules of specs/, its own and others', that a crate's public contracts name, and the types that its callers see."""
    folder = crate / "src"
    names = public_names(folder) or program_names(folder)
    texts = [file.read_text() for file in folder.rglob("*.rt")]
    shown = shown_types(texts, names)
    for text in texts:
        words = clause_words(text, names)
        for of, module, imported, owner in uses(text):
            if owner in shown or any(is_used(name, words) for name in imported):
                yield of, module


def modules_of(crates):
    """The modules of all crates' specs/ that a public contract or a definition outside inner/ names, and those that another crate names."""
    public, lent = set(), set()
    for crate in crates:
        public.update(named(crate))
        for file in [*crate.rglob("*.rt"), *crate.rglob("*.antt")]:
            is_open = file.is_relative_to(crate / "specs") and file.parent.name != "inner"
            for of, module, *_ in uses(file.read_text()):
                if is_open:
                    public.add((of, module))
                if of != crate.name:
                    lent.add((of, module))
    return public, lent


def misplaced(crates):
    """The files of specs/ that stand in the wrong place, each with its crate and why."""
    public, lent = modules_of(crates)
    for crate in crates:
        for file in sorted((crate / "specs").rglob("*.antt")):
            module = file.relative_to(crate / "specs").with_suffix("").as_posix().replace("/", ".")
            if module.startswith(INNER) and (crate.name, module) in public:
                yield crate.name, module, "it is inner, and more than private contracts name it"
            if not module.startswith(INNER) and (crate.name, module) not in public | lent and DEFINES.search(file.read_text()):
                yield crate.name, module, "private contracts alone name it, and it isn't inner"
