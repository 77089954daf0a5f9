#!/usr/bin/env python3
"""as_before.py BEFORE PROGRAM: compares what two programs answer to documents that aren't of version 2: output, error and
status. By hand alone, when a version of documents is added: BEFORE is the program as it was.

The documents are those that rows.py, pieces.sh and steps.py have the program read, and all in examples/, each with every
command that reads a document. Of a document of neither version the sentence on standard error may differ, since it names
the versions that there are. The last line is 'N passed, M failed, K skipped'; those of version 2 are skipped.
"""

import json
import os
import subprocess
import sys
import tempfile
from concurrent.futures import ThreadPoolExecutor
from hashlib import sha256
from pathlib import Path

from counting import Count

HERE = Path(__file__).resolve().parent
COMMANDS = ("check", "firm", "explain", "explain --json", "explain --firm", "certify", "run", "run --document")
LARGE = 1 << 20  # bytes from which a document is given to the commands alone that read it in the tests


def version_of(document):
    """What a document says of its version, where it is an object and that is a whole number (1.0 isn't), and else nothing."""
    try:
        tree = json.loads(document)
    except (ValueError, RecursionError):
        return None
    version = tree.get("version") if isinstance(tree, dict) else None
    return version if type(version) is int else None


def kept(program):
    """The documents that the tests have the program read, each with the command's first word."""
    with tempfile.TemporaryDirectory() as place:
        env = dict(os.environ, PROGRAM=str(program), KEPT=place)
        for script in ("rows.py", "pieces.sh", "steps.py"):
            subprocess.run([HERE / script, HERE / "keeper.sh"], env=env, stdout=subprocess.DEVNULL, check=False)
        for file in sorted(Path(place).iterdir()):
            yield file.name.split(".")[0], file.read_bytes()


def documents(program):
    """All documents, each with the first words of the commands that read it."""
    found = {}
    for word, document in kept(program):
        found.setdefault(sha256(document).digest(), (document, set()))[1].add(word)
    for file in sorted((HERE.parent / "examples").glob("**/*.json")):
        word = "run" if "scenario" in file.parts[-2] else "check"
        found.setdefault(sha256(file.read_bytes()).digest(), (file.read_bytes(), set()))[1].add(word)
    return list(found.values())


def answer(program, command, document):
    """What a program answers."""
    ran = subprocess.run([program, *command.split()], input=document, capture_output=True, check=False)
    return ran.stdout, ran.stderr, ran.returncode


def compare(before, program, document, words):
    """What differs of a document, as lines, and how many commands answer the same."""
    version = version_of(document)
    same, differ = 0, []
    for command in COMMANDS:
        if len(document) > LARGE and command.split()[0] not in words:
            continue
        one, other = answer(before, command, document), answer(program, command, document)
        if version != 1 and one[2] == other[2] == 2:
            one, other = (one[0], one[2]), (other[0], other[2])
        if one == other:
            same += 1
        else:
            differ.append(f"{command}: {one!r:.300} before, {other!r:.300} now, of {document!r:.300}")
    return same, differ


def main(before, program):
    before, program = Path(before).resolve(), Path(program).resolve()
    count = Count("as_before")
    todo = []
    for document, words in documents(before):
        if version_of(document) == 2:
            count.skipped += 1
        else:
            todo.append((document, words))
    with ThreadPoolExecutor(os.cpu_count()) as pool:
        for same, differ in pool.map(lambda one: compare(before, program, *one), todo):
            count.passed += same
            for line in differ:
                count.fails(line)
    return count.told()


if __name__ == "__main__":
    if len(sys.argv) != 3:
        sys.exit(__doc__)
    sys.exit(main(*sys.argv[1:]))
