#!/usr/bin/env python3
"""Compares what `syncaudit rows`, with `--firm`, `--converge` and `--explain` too, answers with a second reading of streams
(row_stream.py), on random streams; where none is refused, its verdict with that of `check --certify`, `firm --certify` or
`converge` of the document for which the stream stands; and what is told of each name with what `explain` tells of the document for
which its row alone stands.

    second/compare_rows.py [COUNT [SEED]]

COUNT random streams (1000 if not given). The program must be built, as SYNCAUDIT_BUILD=1 ./syncaudit does.
"""

import sys
from collections import Counter

from compare import TOP, run, run_with_details, tell_difference, without_details
from row_stream import answer, lines_of
from row_texts import Streams, document_of


def verdict_of(written):
    """The line of the verdict: the first that `check` writes, and the last of `rows` that is of no folder."""
    return [line for line in written.splitlines() if line.startswith((b"settled", b"firm", b"converging", b"not ", b"refused: "))][-1:]


COMMANDS = {"settled": ("rows", "check --certify"), "firm": ("rows --firm", "firm --certify"), "converging": ("rows --converge", "converge")}
EXPLAINED = {"settled": ("rows --explain", "explain --certify"), "firm": ("rows --firm --explain", "explain --certify --firm"),
             "converging": ("rows --converge --explain", "explain --converge")}


def compare_document(stream, aim, told):
    """Compares the verdict with that on the document, unless that is refused: two names of a stream may have one sequence."""
    command, whole = COMMANDS[aim]
    checked, status = run(whole, document_of(stream))
    if status == 2:
        return "refused as a document"
    if verdict_of(checked) != verdict_of(told[0]) or status != told[1]:
        tell_difference(f"{command}, beside {whole}", stream, (checked, status), told)
    return "as its document"


def compare(stream, aim):
    """Compares what is told of a stream of which this is asked, and answers what kind of answer that is."""
    command, _ = COMMANDS[aim]
    told, wanted = run(command, stream), answer(stream, aim)
    if told != wanted:
        tell_difference(command, stream, wanted, told)
    if told[1] == 2:
        return told[0].rpartition(b"refused: ")[2].split()[0].decode()
    return f"{'not ' if told[1] else ''}{aim}, {compare_document(stream, aim, told)}"


def end_of(written):
    """The verdict and the lines behind it."""
    lines = written.splitlines(keepends=True)
    return b"".join(lines[lines.index(verdict_of(written)[0] + b"\n"):])


def compare_explained(stream, aim):
    """Compares what is told of each name with the second reading, but for details; and with what is explained of the document for which
    its row alone stands, which no two records of one sequence keep from being read."""
    command, whole = EXPLAINED[aim]
    told, wanted = run(command, stream), answer(stream, aim, explain=True)
    if (without_details(told[0]), told[1]) != wanted:
        tell_difference(command, stream, wanted, told)
    if told[1] == 2:
        return
    header, *rows = lines_of(stream)
    explained = (run_with_details(whole, document_of(b"\n".join([header, row, b""]))) for row in rows)
    parts = b"".join(text for text, status in explained if status == 1)
    if told[0] != parts + end_of(run(COMMANDS[aim][0], stream)[0]):
        tell_difference(f"{command}, beside {whole}", stream, parts, told[0])


def compare_all(stream):
    """Compares all answers. The kinds of those that aren't explained."""
    for aim in EXPLAINED:
        compare_explained(stream, aim)
    return [compare(stream, aim) for aim in COMMANDS]


def main():
    count = int(sys.argv[1]) if len(sys.argv) > 1 else 1000
    streams = Streams(int(sys.argv[2]) if len(sys.argv) > 2 else 1)
    examples = sorted((TOP / "examples/rows").glob("*.jsonl"))
    kinds = Counter(kind for path in examples for kind in compare_all(path.read_bytes()))
    for _ in range(count):
        kinds.update(compare_all(streams.bytes()))
    for kind, number in kinds.most_common():
        print(f"{number:7} {kind}")
    print(f"{len(examples)} examples and {count} random streams: the same answers")


if __name__ == "__main__":
    main()
