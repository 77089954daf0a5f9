#!/usr/bin/env python3
"""fuzz.py PROGRAM [--seconds N] [--seed N]: has the built program read documents that were changed at random
(fuzzing/drawing.py), by each of its commands, for 40 seconds if not said otherwise. None may end by a signal, take over 5
seconds, end with a status that isn't its own, contradict another, or refuse a document without a place and without a hint. The
seed is the number of commits if none is given, so each run reads other documents, and the same commit the same ones. What fails is kept in a file that is named. The last line
is 'N passed, M failed', one for each command and for each two that are compared."""

import os
import re
import subprocess
import sys
import tempfile
import time
from collections import Counter
from concurrent.futures import ThreadPoolExecutor
from itertools import islice
from pathlib import Path

from commits import commits
from counting import Count

SECONDS, LONGEST, AT_ONCE = 40, 5, 2
# The statuses of each command where memory is there and nothing stands in the way of reading and writing.
CHECKS = {"check": {0, 1, 2}, "firm": {0, 1, 2}, "converge": {0, 1, 2}, "explain": {0, 1, 2}, "explain --json": {0, 1, 2},
          "explain --firm": {0, 1, 2}, "explain --firm --json": {0, 1, 2}, "certify": {0, 1, 2},
          "certify --partial": {0, 2, 6}, "check --certify": {0, 1, 2}, "firm --certify": {0, 1, 2},
          "explain --certify": {0, 1, 2}, "explain --certify --json": {0, 1, 2}, "explain --certify --firm": {0, 1, 2},
          "explain --converge": {0, 1, 2}, "explain --converge --json": {0, 1, 2}}
RUNS = {"run": {0, 1, 2}, "run --document": {0, 1, 2}, "run --turns 1": {0, 1, 2}}
STREAMS = {command: {0, 1, 2} for command in ("rows", "rows --firm", "rows --converge", "rows --explain", "rows --firm --explain", "rows --converge --explain")}
ALL = CHECKS | RUNS | STREAMS


# How a refusal begins whose line has no place, and what a hint says where the program finds none.
NOWHERE = re.compile(rb'refused: 18[1-4] |\{"refused":.*"number":18[1-4]\}')
NOT_FOUND = b"where the document is at fault wasn't found"


def answered(program, command, document):
    """What the command writes of the document, its status, or why it has none, and what it tells on standard error."""
    try:
        ran = subprocess.run([program, *command.split()], input=document, capture_output=True, timeout=LONGEST)
    except subprocess.TimeoutExpired:
        return b"", f"takes over {LONGEST} seconds", b""
    return ran.stdout, ran.returncode, ran.stderr


def run(program, command, document):
    """What the command writes of the document, and its status, or why it has none."""
    return answered(program, command, document)[:2]


def lacks_hint(command, answer, status, told):
    """Whether the document is refused without a place, and not told where to look; or with one, and told more."""
    if status != 2 or command in STREAMS:
        return False
    lines = told.splitlines()
    return len(lines) != 1 or lines[0] == NOT_FOUND if NOWHERE.match(answer) else bool(lines)


def fault(command, status):
    """Why it may not end so, if it may not."""
    if isinstance(status, str):
        return f"it {status}"
    if status < 0:
        return f"it ends by signal {-status}"
    return "" if status in ALL[command] else f"it ends with status {status}"


def first_reason(answer):
    """The first reason that is told, with its place, by `check`, `converge` or `explain`; what else stands on the first line."""
    return answer[0].partition(b"\n")[0].removeprefix(b"not settled: ").removeprefix(b"not converging: ")


def first_lines(answer):
    """The first reason that is told of each name, and what comes behind the names."""
    lines = [line for line in answer.splitlines() if not line.startswith(b"  ")]
    last = next((place for place, line in enumerate(lines) if line.startswith((b"settled", b"firm", b"converging", b"not ", b"line "))), len(lines))
    return list({tuple(line.split()[1:3]): line for line in reversed(lines[:last])}.values())[::-1] + lines[last:]


def rows_contradictions(program, command, whole, stream, answer, status):
    """The same of the answer to a stream of rows, and of what is answered to the whole: what was answered before a refusal stands."""
    last = answer.rpartition(b"\n")[0].rpartition(b"\n")[2]
    yield f"{command} and its last line", (status == 2) != last.startswith(b"line ")
    if status == 2 and last.startswith(b"line "):
        before = stream.split(b"\n")[:int(last.split()[1][:-1]) - 1]
        so_far = run(program, command, b"\n".join(before) + b"\n")[0]
        yield f"{command} and {command} of the lines before", bool(before) and not so_far.startswith(answer.removesuffix(last + b"\n"))
    elif status in (0, 1):
        from row_texts import document_of
        checked, as_document = run(program, whole, document_of(stream))
        verdict = [line for line in answer.splitlines() if not line.startswith(b"folder ")][-1:]
        yield f"{command} and {whole}", as_document != 2 and (as_document, checked.splitlines()[:1]) != (status, verdict)


def contradictions(program, document, told):
    """The pairs of commands of which the one contradicts the other, each with whether it does."""
    status = {command: one[1] for command, one in told.items()}
    if "check" in told:
        yield "check and explain", status["check"] != status["explain"]
        yield "explain and explain --json", status["explain"] != status["explain --json"]
        yield "firm and explain --firm", status["firm"] != status["explain --firm"]
        yield "firm and check", status["firm"] == 0 != status["check"] or (status["firm"] == 2) != (status["check"] == 2)
        yield "certify and converge", (status["certify"] == 2) != (status["converge"] == 2)
        yield "converge and explain --converge", first_reason(told["converge"]) != first_reason(told["explain --converge"])
        yield "explain --converge and --json", status["explain --converge"] != status["explain --converge --json"]
        yield "certify and check --certify", (status["certify"] == 2) != (status["check --certify"] == 2)
        yield "check --certify and explain --certify", first_reason(told["check --certify"]) != first_reason(told["explain --certify"])
        yield "explain --certify and --json", status["explain --certify"] != status["explain --certify --json"]
        yield "firm --certify and explain --certify --firm", status["firm --certify"] != status["explain --certify --firm"]
        if status["certify"] == 0:
            yield "certify and check", run(program, "check", told["certify"][0])[1] not in (0, 1)
            for word in ("check", "firm", "explain"):
                yield f"certify then {word} and {word} --certify", run(program, word, told["certify"][0]) != told[f"{word} --certify"]
        elif status["certify"] == 1:
            yield "certify and the line of check --certify", told["certify"][0] != told["check --certify"][0].partition(b"\n")[0] + b"\n"
        yield "certify and certify --partial", (status["certify"] == 0) != (status["certify --partial"] == 0)
    if "run" in told:
        yield "run and run --document", (status["run"] == 2) != (status["run --document"] == 2)
        if status["run --document"] == 0:
            yield "run and check", run(program, "check", told["run --document"][0])[1] != status["run"]
        # What is settled stays settled, and whatever threads do is one run.
        refused, last = status["run"] == 2, told["run --turns 1"][0].rpartition(b"\n")[0].rpartition(b"\n")[2]
        yield "run and run --turns", refused != (status["run --turns 1"] == 2) or status["run"] == 0 != status["run --turns 1"]
        yield "run --turns and its last line", refused == last.startswith(b"run fits: ")
    if "rows" in told:
        yield from rows_contradictions(program, "rows", "check --certify", document, *told["rows"])
        yield from rows_contradictions(program, "rows --firm", "firm --certify", document, *told["rows --firm"])
        yield from rows_contradictions(program, "rows --converge", "converge", document, *told["rows --converge"])
        yield "rows and rows --firm", status["rows --firm"] == 0 != status["rows"] or (status["rows"] == 2) != (status["rows --firm"] == 2)
        for command in ("rows", "rows --firm", "rows --converge"):
            yield f"{command} and --explain", (first_lines(told[command][0]), status[command]) != (first_lines(told[f"{command} --explain"][0]), status[f"{command} --explain"])


def faults(program, document, commands):
    """What is at fault in how the program answers the document, by command or pair of commands; '' where nothing is."""
    answers = {command: answered(program, command, document) for command in commands}
    told = {command: answer[:2] for command, answer in answers.items()}
    found = {command: fault(command, status) for command, (_, status) in told.items()}
    found |= {f"{command} and its hint": "the refusal has a place or a hint, and not both" if lacks_hint(command, *answer) else ""
              for command, answer in answers.items() if command not in STREAMS}
    for pair, is_so in contradictions(program, document, told):
        found[pair] = "they contradict each other" if is_so else ""
    return found


def drawn(seed, until):
    """Documents, and streams of rows, with the commands that read them, until that time."""
    from fuzzing.drawing import Drawing
    drawing = Drawing(seed)
    while time.monotonic() < until:
        document, commands = drawing.stream_or_document()
        yield document, ALL if drawing.made.happens(0.05) else {"check": CHECKS, "run": RUNS, "rows": STREAMS}[commands]


def kept(document):
    """The name of a file that has the document."""
    with tempfile.NamedTemporaryFile(prefix="fuzz-", suffix=".json", delete=False) as file:
        file.write(document)
    return file.name


def said(words, option, otherwise):
    """The number behind an option, or what it is otherwise."""
    return float(words[words.index(option) + 1]) if option in words else otherwise


def main(given, *words):
    program, count, read = Path(given).resolve(), Count("fuzz"), Counter()
    if not os.access(program, os.X_OK):
        count.fails(f"there is no program {given}")
        return count.told()
    if sys.version_info < (3, 11):
        print("fuzz: SKIPPED: the second reading, which draws documents, needs python3 of version 3.11 or later")
        print("0 passed, 0 failed, 1 skipped")
        return 0
    seed, until = int(said(words, "--seed", commits())), time.monotonic() + said(words, "--seconds", SECONDS)
    documents, bad = drawn(seed, until), set()
    with ThreadPoolExecutor(AT_ONCE) as pool:
        while some := list(islice(documents, 50)):
            for (document, _), found in zip(some, pool.map(lambda one: faults(program, *one), some)):
                read["documents"] += 1
                for what, why in found.items():
                    read[what] += 1
                    if why and what not in bad:
                        bad.add(what)
                        count.fails(f"{what}: {why}, of the document {kept(document)} (seed {seed})")
    for what in read.keys() - bad - {"documents"}:
        count.says(what, "")
    print(f"fuzz: {read['documents']} documents by seed {seed}; " + ", ".join(
        f"{what} {number}" for what, number in read.items() if what != "documents"))
    return count.told()


if __name__ == "__main__":
    sys.exit(main(*sys.argv[1:]))
