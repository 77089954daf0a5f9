"""What the pages say, beside the definitions and the code: numbers, reasons. And whether the schemas describe each member."""

import json
import re

SCHEMAS = ("check-document", "explanation", "scenario")


def tables(text):
    """The tables of a page: the heading under which each stands, and its rows as lists of cells."""
    heading, rows = "", []
    for line in [*text.splitlines(), ""]:
        if line.startswith("|"):
            rows.append([cell.strip() for cell in line.strip("| ").split(" | ")])
        elif rows:
            yield heading, rows[0], rows[2:]
            rows = []
        if line.startswith("#"):
            heading = line.lstrip("# ")


def undescribed(schema):
    """The members in a schema's objects that neither they themselves nor what they refer to describe."""
    def is_described(member):
        name = member.get("$ref", "").removeprefix("#/$defs/")
        return "description" in member or name and is_described(schema["$defs"][name])

    def look(value, name):
        if isinstance(value, list):
            for item in value:
                yield from look(item, name)
        if isinstance(value, dict):
            # what forbids further members is where they are told; elsewhere one is only narrowed
            if value.get("additionalProperties") is False:
                yield from (f"{name}: {member}" for member, of in value["properties"].items() if not is_described(of))
            for inner, of in value.items():
                yield from look(of, inner)

    yield from look(schema, "")


def numbers(crates, manual, text):
    """The numbers and names of refusals of steps, by the man page, and of faults of documents, by the page, and by the definitions."""
    answers = (crates / "bep_machine/specs/Answer.antt").read_text()
    steps = set(re.findall(r"\b(1[0-6]\d) ([A-Z]\w+)", manual))
    yield "refusals of steps", steps, {(number, name) for name, number in re.findall(r"^number_of (\w+) = (\d+)", answers, re.MULTILINE)}
    names = (crates / "bep_document/src/fault.rt").read_text()
    faults = {(row[0], row[1]) for _, head, rows in tables(text) if head[:2] == ["Number", "Name"] for row in rows}
    enum = re.search(r"pub enum Fault \{(.*?)\n\}", names, re.DOTALL)[1]
    listed = re.findall(r"^    (\w+),", enum, re.MULTILINE)
    yield "faults of documents", faults, {(str(181 + place), name) for place, name in enumerate(listed)}


def reasons(crates, text):
    """The reasons in their order, the further ones of firm, and those of converging, by the page and by the code."""
    for title, file, enum in (("The twelve reasons", "bep_model/src/reason", "Reason"), ("Firm", "bep_model/src/firm_reason", "FirmReason"),
                              ("Converging", "bep_converge/src/converge_reason", "ConvergeReason")):
        source = (crates / f"{file}.rt").read_text()
        body = re.search(rf"pub enum {enum} \{{(.*?)\n\}}", source, re.DOTALL)[1]
        listed = re.findall(r"^    ([A-Z]\w+),", body, re.MULTILINE)
        section = re.search(rf"^## {title}\n(.*?)(?=^## |\Z)", text, re.DOTALL | re.MULTILINE)[1]
        told = [list(found) for found in re.findall(r"^(\d+)\. \*\*(\w+)\.\*\*", section, re.MULTILINE)]
        yield title, told, [[str(place), name] for place, name in enumerate(listed, 1)]


def check(count, top):
    """Counts what the pages say as the definitions do, and which schemas describe all of their members."""
    text = (top / "docs/documents.md").read_text()
    for name in SCHEMAS:
        lacks = list(undescribed(json.loads((top / "docs" / f"{name}.schema.json").read_text())))
        count.says(f"docs/{name}.schema.json: descriptions", f"nothing describes {', '.join(lacks)}" if lacks else "")
    found = [*numbers(top / "crates", (top / "docs/syncaudit.1").read_text(), text),
             *reasons(top / "crates", (top / "docs/reasons.md").read_text())]
    count.says("docs/documents.md: tables", "" if len(found) == 5 else f"{len(found)} things are compared")
    for what, told, right in found:
        count.says(f"docs: {what}", "" if told == right else f"the page has {told}, and not {right}")
