#!/usr/bin/env python3
"""turns.py PROGRAM: runs the built program on four scenarios, after whose steps threads make turns, and compares what doesn't
depend on which thread comes first. The last line is 'N passed, M failed'.

The refused steps come before any thread. What is settled when the threads begin stays settled: names, contents and deletions
are as they were, but versions may grow. The logs are those of one run, in which each scan of a name that was there from the
beginning is an event.
"""

import json
import os
import re
import subprocess
import sys
from pathlib import Path

from counting import Count

TOP = Path(__file__).resolve().parents[1]
TURNS = 3
ENOUGH = 70000  # a scanner's turn leaves an event for each name, and a log has room for 65536
# The certificate's line of a name: folder, name, device, type, mark and version, and of version 2 the block size.
ROW = re.compile(r"(\S+ \S+) \d+ (\d (?:present|deleted)) \S+((?: \d+)?)")
COPY = "notes.sync-conflict-2000-0000000000000002.txt"
# Each scenario, how many names stand on its devices when the threads begin, added up, and whether it is settled then.
SCENARIOS = (("a-file-is-taken-over", 2, True), ("version-2", 2, True), ("conflict-to-its-end", 4, True),
             ("conflict", 3, False))


def path_of(scenario):
    """The file of a scenario."""
    return TOP / "examples/scenarios" / f"{scenario}.json"


def run(program, scenario, *words):
    """The lines that the program writes and tells, and its status."""
    with open(path_of(scenario), "rb") as document:
        done = subprocess.run([program, "run", *words], stdin=document, capture_output=True, text=True)
    return done.stdout.splitlines(), done.stderr.splitlines(), done.returncode


def audit(program, document):
    """The first line of an audit of the document, and its status."""
    done = subprocess.run([program, "check"], input=document, capture_output=True, text=True)
    return done.stdout.partition("\n")[0], done.returncode


def without_versions(lines):
    """The lines, in which the rows of the certificate have neither version nor device."""
    return [f"{found[1]} {found[2]}{found[3]}" if (found := ROW.fullmatch(line)) else line for line in lines]


def events(line):
    """How many events a run has by its line, or None where it isn't that of a run that fits."""
    found = re.fullmatch(r"run fits: (\d+)", line)
    return int(found[1]) if found else None


def of_run(scenario, names, last):
    """What is wrong with the last line, if anything is."""
    count = events(last)
    if count is None:
        return f"the last line is '{last}'"
    return f"{count} events are fewer than {TURNS * names} scans" if count < TURNS * names else ""


def of_settled(plain, lines):
    """What differs from the run without threads, where that is settled."""
    before, after = without_versions(plain), without_versions(lines)
    return f"{after} in place of {before}" if before != after else ""


def of_scanned(plain, lines, status):
    """What is wrong where a file is put that no step scans: a scanner's first turn records it, so it has a winner. Whether the
    other device has it by then is open."""
    verdict, *rest = without_versions(lines)
    if rest != [plain[1], f"docs {COPY} 0 present", "docs notes.txt 0 present"]:
        return f"{rest} in place of the two files"
    fits = verdict == "settled" if status == 0 else verdict.startswith("not settled: ") and status == 1
    return "" if fits else f"'{verdict}' with status {status}"


def try_report(count, program, scenario, names, settled):
    """Compares the report, and its last line."""
    plain, _, status = run(program, scenario)
    lines, error, ended = run(program, scenario, "--turns", str(TURNS))
    if not lines:
        return count.fails(f"{scenario}: nothing is written: {error}")
    *lines, last = lines
    count.says(f"{scenario}, the run", of_run(scenario, names, last))
    count.says(f"{scenario}, the report", of_settled(plain, lines) if settled else of_scanned(plain, lines, ended))
    if settled:
        count.says(f"{scenario}, the status", f"{ended} in place of {status}" if ended != status else "")


def try_document(count, program, scenario, names):
    """Compares the document of a settled cut, and what is told beside it."""
    _, refused, _ = run(program, scenario, "--document")
    lines, error, status = run(program, scenario, "--document", "--turns", str(TURNS))
    if status != 0 or len(lines) != 1 or not error:
        return count.fails(f"{scenario}: {lines} with status {status}, and {error}")
    *error, last = error
    count.says(f"{scenario}, the refused steps", f"{error} in place of {refused}" if error != refused else "")
    count.says(f"{scenario}, the run of the document", of_run(scenario, names, last))
    told = audit(program, lines[0])
    count.says(f"{scenario}, the document", f"it is {told}" if told != ("settled", 0) else "")
    written, read = json.loads(lines[0])["version"], json.loads(path_of(scenario).read_text())["version"]
    count.says(f"{scenario}, its version", f"it is {written} in place of {read}" if written != read else "")


def try_full(count, program, scenario):
    """More turns than a log has room for: which logs are full is told, once each, behind what else is told. With few turns
    nothing is."""
    full = [f"log full: device {device}" for device in (1, 2)]
    for words, turns, expected in (((), ENOUGH, full), ((), TURNS, []), (("--document",), ENOUGH, full)):
        _, error, status = run(program, scenario, *words, "--turns", str(turns))
        told = error[-len(expected):] if words else error
        of = " ".join(("the logs of", scenario, *words, str(turns)))
        count.says(of, f"{told} with status {status}" if told != expected or status != 0 else "")


def main(given, *_):
    count = Count("turns")
    program = Path(given).resolve()
    if not os.access(program, os.X_OK):
        count.fails(f"there is no program {given}")
        return count.told()
    for scenario, names, settled in SCENARIOS:
        try_report(count, program, scenario, names, settled)
        if settled:
            try_document(count, program, scenario, names)
    try_full(count, program, "a-file-is-taken-over")
    return count.told()


if __name__ == "__main__":
    sys.exit(main(*sys.argv[1:]))
