#!/usr/bin/env python3
"""Compares the program with the second reading on each document that tests/pieces.sh and tests/steps.py put together:
check documents as compare.py does, scenarios as compare_runs.py does.

    second/compare_pieces.py

The scripts are run on a program that keeps what it reads, and then runs the true one; so their rows are tried by the way.
"""

import os
import pathlib
import subprocess
import sys
import tempfile
from collections import Counter

import scenario
from compare import PROGRAM, TOP, compare, kind_of, tell_difference


def put_together(folder):
    """The documents that the rows ask the program about, each with its command, each once."""
    told = os.environ | {"KEPT": str(folder), "PROGRAM": str(PROGRAM)}
    for script in ("pieces.sh", "steps.py"):
        ran = subprocess.run([TOP / "tests" / script, TOP / "tests/keeper.sh"], env=told, capture_output=True, text=True, check=False)
        print(ran.stdout.rstrip())
        if ran.returncode != 0:
            sys.exit("the rows fail")
    documents = {("run" if path.name.startswith("run.") else "check", path.read_bytes()) for path in folder.iterdir()}
    return sorted(documents)


def compare_run(document):
    """Compares what is told of a scenario, and answers what `run` should write."""
    wanted = scenario.answer(document)
    ran = subprocess.run([PROGRAM, "run"], input=document, capture_output=True, check=False)
    if (ran.stdout, ran.returncode) != wanted:
        tell_difference("run", document, wanted, ran)
    return wanted[0]


def main():
    """Compares all, and tells how often which first words were written."""
    with tempfile.TemporaryDirectory() as folder:
        documents = put_together(pathlib.Path(folder))
    kinds = Counter()
    for command, document in documents:
        told = compare(document) if command == "check" else compare_run(document)
        kinds[f"{command}: {kind_of(told)}"] += 1
    for kind, number in kinds.most_common():
        print(f"{number:7} {kind}")
    print(f"{len(documents)} documents of pieces: the same answers")


if __name__ == "__main__":
    main()
