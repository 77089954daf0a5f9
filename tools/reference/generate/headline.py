"""The page of what the three headlines rest on, by the imports of the definitions."""

from reading import Specs, clause

INTRODUCTION = """# What the headlines rest on

[trust.md](../trust.md#the-headlines) says what the three headlines mean. This page has each definition on which their words
rest, from the clause downwards, as the imports of the files have it. Who believes these, and the plain types of `src/` named
below each table, needs to believe nothing else of this repository: the gate checks the proofs. The definitions also use words
of the kit, its standard library and its `sha2`; these and all else that is trusted stand in
[trust.md](../trust.md#what-is-trusted). Lines are those of the definitions named, without comments and imports.
"""

CHECKERS, FIRM, ANSWERS = "bep_audit/src/checkers.rt", "bep_audit/src/firm.rt", "bep_answer/src/answers.rt"
CONVERGING, PREVAILING, ARRIVAL = "bep_converge_check/src/checker.rt", "bep_converge/src/laws.rt", "bep_converge/src/arrival.rt"
FULL = [
    ("What is settled stays put", CHECKERS, ["check", "check_plain"], ["stays_put", "stays_settled"]),
    ("What is firm stays firm", FIRM, ["firm_verdict"], ["stays_firm"]),
    ("What converges goes on", CONVERGING, ["converge_verdict"], ["goes_on"]),
]
BEYOND = [
    ("What is firm stays put, beyond both", FIRM, ["firm_verdict"], ["stays_put"]),
    ("What converges goes on with all orderly peers, beyond all of these", PREVAILING, ["runs_keep_prevailing"], [""]),
    ("What converges can come to all, beyond all of these", ARRIVAL, ["all_come"], [""]),
    ("From a document's bytes to its cut, beyond all of these", ANSWERS, ["check_text"], ["settled"]),
]


def quoted(names, between=", "):
    return between.join(f"`{name}`" for name in names)


class Page:
    """Tables of definitions, each beside its file; `linked` makes a link of a file."""

    def __init__(self, crates, linked):
        self.crates = crates
        self.linked = linked
        self.specs = Specs(crates)
        self.told = set()

    def row(self, crate, module, found):
        """The row of a file."""
        file = self.crates / crate / "specs" / (module.replace(".", "/") + ".antt")
        names = quoted(name for block in found for name in block.names)
        return f"| {crate} | {self.linked(file)} | {names} | {sum(len(block.lines) for block in found)} |"

    def of(self, clauses):
        """The clauses in words; of a law there is one without a name."""
        return "Law " if clauses == [""] else f"Clauses {quoted(clauses, ' and ')} of "

    def section(self, title, file, functions, clauses, told=()):
        """A headline with its table, of what wasn't told yet."""
        source = self.crates / file
        text = source.read_text()
        start = [name for function in functions for one in clauses for name in clause(text, function, one)]
        found, types = self.specs.closure(start)
        new = {place: kept for place, blocks in found.items()
               if (kept := [block for block in blocks if (place, *block.names) not in told])}
        self.told.update((place, *block.names) for place, blocks in new.items() for block in blocks)
        count = sum(len(block.lines) for blocks in new.values() for block in blocks)
        files = ", ".join(self.linked(self.crates / crate / "src" / f"{name}.rt") for crate, name in sorted(types))
        return "\n".join([f"## {title}", "",
                          f"{self.of(clauses)}{quoted(functions, ' and ')} in {self.linked(source)}. "
                          f"Lines: {count}. Files: {len(new)}.", "",
                          "| Crate | File | Definitions | Lines |", "|---|---|---|---|",
                          *(self.row(*place, blocks) for place, blocks in new.items()), "", f"Plain types: {files}.", ""])

    def text(self):
        full = [self.section(*one) for one in FULL]
        beyond = [self.section(*one, self.told) for one in BEYOND]
        return "\n".join([INTRODUCTION, *full, *beyond])
