#!/usr/bin/env python3
"""rows.py PROGRAM: runs the built program as each row of rows/ says, and compares its standard output, its standard error
and its status. The last line is 'N passed, M failed'. 'rows.py --list' prints what each document of examples/ shows, and the
first line that the program writes of it.

A row is a shell command after '$ ', what it writes, what it tells on standard error after '! ', and its status in
brackets. '! ...' stands for a text that has no promise, but there is one. '= FILE' stands for the JSON of this file of
rows/, on one line. A line that begins with '#' says what a row shows. From some rows others follow, as said below.
"""

import json
import os
import re
import subprocess
import sys
import tempfile
from dataclasses import dataclass, replace
from pathlib import Path

from counting import Count
from explained import difference

HERE = Path(__file__).resolve().parent
TOP = HERE.parent
SOME_TEXT = ["..."]
# The reasons that lie with the certificate.
OF_CERTIFICATE = re.compile("CertificateOrder|NameMissing|NameUnknown|NotWinner")


@dataclass
class Row:
    command: str
    output: list
    error: list
    status: int
    shows: str = ""

    def reads(self, words):
        """What the program reads, where the command is these words of it alone, and else nothing."""
        found = re.fullmatch(f"syncaudit {words} < (.*)", self.command)
        return found[1] if found else None


def one_line(file):
    """The JSON of a file of rows/, as the program writes it: on one line, and members in the file's order."""
    return json.dumps(json.loads((HERE / "rows" / file).read_text()), separators=(",", ":"), ensure_ascii=False)


def rows_of(file):
    """The rows of a file."""
    rows, row, shows = [], None, []
    for number, line in enumerate(file.read_text().splitlines(), 1):
        if row is None and line.startswith("$ "):
            row = Row(line[2:], [], [], -1, " ".join(shows))
        elif row is None and (not line or line.startswith("#")):
            shows = [*shows, line.removeprefix("# ")] if line.startswith("# ") else []
        elif row is None:
            sys.exit(f"rows: {file.name}, line {number} belongs to no row")
        elif re.fullmatch(r"\[\d+\]", line):
            rows.append(replace(row, status=int(line[1:-1])))
            row = None
        elif line.startswith("! "):
            row.error.append(line[2:])
        else:
            row.output.append(one_line(line[2:]) if line.startswith("= ") else line)
    if row is not None:
        sys.exit(f"rows: {file.name} ends before the status of '{row.command}'")
    return rows


def run(command, environment):
    """The lines that a shell's command writes and tells, and its status."""
    done = subprocess.run(["bash", "-c", command], cwd=TOP, env=environment, stdin=subprocess.DEVNULL, capture_output=True)
    lines = [stream.decode(errors="surrogateescape").splitlines() for stream in (done.stdout, done.stderr)]
    return *lines, done.returncode


def fault_of(row, environment):
    """What differs from the row, if anything does."""
    output, error, status = run(row.command, environment)
    faults = []
    if status != row.status:
        faults.append(f"the status is {status}, and not {row.status}")
    if output != row.output:
        faults.append(f"it writes {output}, and not {row.output}")
    if row.error == SOME_TEXT and not error:
        faults.append("nothing is on standard error")
    if row.error not in (error, SOME_TEXT):
        faults.append(f"it tells {error}, and not {row.error}")
    return "; ".join(faults)


def following_check(row, document, commands):
    """The rows that follow from what is told of a check document.

    Where it isn't at fault, or refused, `explain` has one line to tell; else a row of its own says all that fails. Where
    it isn't settled, or refused, `firm` tells the same; else a row of its own says whether it is firm. Where the
    certificate isn't at fault, the one that is made anew is the same.
    """
    if row.status != 1:
        yield Row(f"syncaudit explain < {document}", row.output[:1], row.error, row.status)
    elif f"syncaudit explain < {document}" not in commands:
        yield f"no row says all that fails in {document}"
    if row.status:
        output = [line.replace("not settled: ", "not firm: ", 1) for line in row.output]
        yield replace(row, command=f"syncaudit firm < {document}", output=output)
    elif f"syncaudit firm < {document}" not in commands:
        yield f"no row says whether {document} is firm"
    if row.status != 2 and not OF_CERTIFICATE.search(row.output[0]):
        yield replace(row, command=f"syncaudit check < <(syncaudit certify < {document})")


def following_converge(row, document, commands):
    """The row that follows from what `converge` tells of a check document: where the cut converges, or the document is refused,
    `explain --converge` has one line to tell; else a row of its own says all that fails."""
    command = f"syncaudit explain --converge < {document}"
    if row.status != 1:
        yield Row(command, row.output[:1], row.error, row.status)
    elif command not in commands:
        yield f"no row says all that keeps {document} from converging"


def following_run(row, scenario):
    """The row that follows from where a scenario leads: so does the document of its end. Its refused steps are told beside
    it. Where it has no certificate, or none is made, it is answered in the document's place."""
    steps = [line for line in row.output if line.startswith("step ")]
    command = f"syncaudit run --document < {scenario}"
    if any(re.search("NotWinner |refused: ", line) for line in row.output):
        report = "not settled|refused"
    else:
        report = "settled|not settled|folder "
        command = f"syncaudit check < <({command})"
    yield Row(command, [line for line in row.output if re.match(report, line)], steps or row.error, row.status)


def following(row, commands):
    """The rows that follow from this one."""
    document, scenario, converging = row.reads("check"), row.reads("run"), row.reads("converge")
    if document and re.fullmatch(r"examples/[a-z-]*\.json", document):
        yield from following_check(row, document, commands)
    if converging:
        yield from following_converge(row, converging, commands)
    if scenario and row.status <= 2:
        yield from following_run(row, scenario)


def first_rows(rows):
    """Of each document of examples/ the first row that reads it by `check`, `run` or `rows` alone; nothing where none does."""
    first = {}
    for row in rows:
        read = row.reads("check") or row.reads("run") or row.reads("rows")
        if read:
            first.setdefault(read, row)
    files = (file.relative_to(TOP).as_posix() for file in sorted((TOP / "examples").rglob("*.json*")))
    return {file: first.get(file) for file in files}


def untold(rows):
    """The documents of examples/ of which no row says what they show."""
    for file, row in first_rows(rows).items():
        if row is None:
            yield f"{file} has no row"
        elif not row.shows:
            yield f"no line above its row says what {file} shows"


def tell(rows):
    """Prints what the documents of examples/ show, in the order of the rows."""
    places = {row.command: place for place, row in enumerate(rows)}
    for file, row in sorted(first_rows(rows).items(), key=lambda item: places[item[1].command]):
        print(f"{file}: {row.shows}\n    {(row.output or row.error or ['-'])[0]}")


def main(given, *_):
    rows = [row for file in sorted((HERE / "rows").glob("*.rows")) for row in rows_of(file)]
    if given == "--list":
        tell(rows)
        return 0
    program = Path(given).resolve()
    count = Count("rows")
    if not os.access(program, os.X_OK):
        count.fails(f"there is no program {given}")
        return count.told()
    commands = {row.command for row in rows}
    more = [it for row in rows for it in following(row, commands)]
    documents = [f"examples/{file.name}" for file in sorted((TOP / "examples").glob("*.json"))]
    documents += [f"examples/faulty/{file.name}" for file in sorted((TOP / "examples/faulty").glob("*.json"))]
    with tempfile.TemporaryDirectory() as tools:
        (Path(tools) / "syncaudit").symlink_to(program)
        environment = {**os.environ, "PATH": f"{tools}:{os.environ['PATH']}"}
        for row in [*rows, *(it for it in more if isinstance(it, Row))]:
            count.says(row.command, fault_of(row, environment))
    for document in documents:
        count.says(f"{document} as JSON", difference(program, TOP / document))
    for fault in [*(it for it in more if isinstance(it, str)), *untold(rows)]:
        count.fails(fault)
    return count.told()


if __name__ == "__main__":
    sys.exit(main(*sys.argv[1:]))
