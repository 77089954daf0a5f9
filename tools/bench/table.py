#!/usr/bin/env python3
"""table.py: writes the table of README.md anew: of each figure of asked.csv the newest line of results.csv, beside what is
asked. 'table.py --check' only says whether it is current. 'table.py --all' prints the newest line of every figure."""

import csv
import sys
from pathlib import Path

HERE = Path(__file__).resolve().parent
BEGIN, END = "<!-- table.py writes from here -->\n", "<!-- to here -->\n"


def lines_of(name):
    """The lines of a table of this folder."""
    with (HERE / name).open(newline="") as file:
        return list(csv.DictReader(file))


def newest():
    """The newest line of each figure, by its command and figure."""
    return {(row["command"], row["figure"]): row for row in lines_of("results.csv")}


def measured(row):
    """When and where a figure was measured."""
    return ", ".join(part for part in (row["date"], row["revision"], row["circumstances"]) if part)


def asked_of(row):
    """What is asked of a figure, as it follows the figure's name; nothing where nothing is."""
    return f" ({row['asked']})" if row["asked"] else ""


def every_figure():
    """The newest lines, those of a command side by side, in the order in which the commands first came."""
    found = newest()
    first = {command: place for place, (command, _) in reversed(list(enumerate(found)))}
    return sorted(found.values(), key=lambda row: first[row["command"]])


def table(asked, found):
    """The table's lines: what is asked, and what was measured last. How busy the machine was stands in results.csv."""
    lines = ["| Figure, and what is asked | Value | Measured |", "|---|---|---|"]
    for row in asked:
        line = found[row["command"], row["figure"]]
        value = f"{line['value']} {line['unit']}".strip()
        lines.append(f"| `{row['command']}`: {row['figure']}{asked_of(row)} | {value} | {line['date']}, {line['revision']} |")
    return "\n".join(lines) + "\n"


def main():
    if sys.argv[1:] == ["--all"]:
        for row in every_figure():
            print(f"{row['command']}: {row['figure']}: {row['value']} {row['unit']} ({measured(row)})")
        return 0
    page = HERE / "README.md"
    text = page.read_text()
    before, _, rest = text.partition(BEGIN)
    after = rest.partition(END)[2]
    made = before + BEGIN + table(lines_of("asked.csv"), newest()) + END + after
    if sys.argv[1:] == ["--check"]:
        return int(made != text)
    page.write_text(made)
    return 0


if __name__ == "__main__":
    sys.exit(main())
