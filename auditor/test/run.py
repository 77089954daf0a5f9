#!/usr/bin/env python3
"""Runs the tests of the audit of real devices: Go's, and each class of cases against real Syncthing devices in a process of its own,
side by side. The last line is 'N passed, M failed', and ', K skipped' after it where something was.

    auditor/test/run.py [SECONDS]
    SYNCTHING=syncthing:OTHER/syncthing auditor/test/run.py [SECONDS]    devices run these by turns
    auditor/test/run.py --list                                           says what each class has, and runs nothing

It installs nothing. Where something is missing it says what, and skips all; a class and Go's tests count as one each
then. With SECONDS, cases that aren't begun by then are skipped; so are all where building takes longer. What was begun
goes on to its end, for which it has more time than a slow machine needs: what hangs fails. The number of commits says with
which class it begins then, so that each class has its turn. Go's tests run beside the classes: by themselves they would take
all of the gate's time. A busy machine may be slow once, so a class that fails, or a package of Go, is run again; what it said
the first time is told, whatever comes then.
"""

import ast
import os
import re
import signal
import socket
import subprocess
import sys
import tempfile
import time
from concurrent.futures import ThreadPoolExecutor
from pathlib import Path

HERE = Path(__file__).resolve().parent
# The longest first: a module and a class of it on each line.
CLASSES = [tuple(line.split()) for line in (HERE / "classes.txt").read_text().splitlines()]
# The classes and Go's tests.
ALL = len(CLASSES) + 1
SIDE_BY_SIDE = 4
# By how many classes a commit moves the beginning, where time is short.
COMMITS_APART = 7
# What devices may run.
VERSIONS = ("syncthing v1.19", "syncthing v1.29")
# Go's tests take two minutes of a processor. One of the others fails by itself where a wait takes 300; this is for what else may hang.
SECONDS_OF_GO = 900
SECONDS_OF_A_CASE = 600


def missing():
    """What isn't there that the tests need."""
    if sys.version_info < (3, 11):
        return ["Python 3.11"]
    from exporting import missing_packages
    lacking = missing_packages()
    if not lacking:
        lacking += [f"{' or '.join(VERSIONS)}, as Debian 12 and 13 have it (this is {said.strip()})"
                    for said in versions() if not said.startswith(VERSIONS)]
    try:
        socket.create_server(("127.0.0.1", 0)).close()
    except OSError:
        lacking.append("the loopback address 127.0.0.1")
    return lacking


def versions():
    """The versions of the programs that devices run."""
    from syncthing import programs, version_of
    return [version_of(one) for one in programs()]


def count_of(text):
    """How many cases passed, failed and weren't begun, by what unittest said."""
    ran = re.search(r"^Ran (\d+) tests?", text, re.MULTILINE)
    if not ran:
        return 0, 1, 0
    failed = sum(int(number) for number in re.findall(r"(?:failures|errors)=(\d+)", text))
    skipped = sum(int(number) for number in re.findall(r"skipped=(\d+)", text))
    return max(int(ran[1]) - failed - skipped, 0), failed, skipped


def end(process):
    """Ends a process that was started here, and those that it started, which are a group of their own."""
    for sign in (signal.SIGTERM, signal.SIGKILL):
        try:
            os.killpg(process.pid, sign)
        except ProcessLookupError:
            break
        time.sleep(2)
    process.wait()


def run_until(deadline, words, **options):
    """Runs a command, and gives its status and what it said; in place of a status nothing if it was ended at the
    deadline."""
    process = subprocess.Popen(words, stdout=subprocess.PIPE, stderr=subprocess.STDOUT, text=True,
                               start_new_session=True, **options)
    try:
        said, _ = process.communicate(timeout=max(deadline - time.monotonic(), 0))
        return process.returncode, said
    except subprocess.TimeoutExpired:
        end(process)
        return None, process.communicate()[0]


def build(room, environment, deadline):
    """Builds the audit, and has Go vet it; gives the status, nothing if that wasn't done by the deadline."""
    from exporting import PROGRAM, build_words
    for words in (build_words(room), ["go", "vet", "-p", "1", f"{PROGRAM}/..."]):
        status, said = run_until(deadline, words, env=environment)
        if status != 0:
            print(said)
            return status
    return 0


def run_go(environment):
    """Builds and runs Go's tests, and gives how many passed and failed. Packages that fail are run once more."""
    from exporting import PROGRAM
    status, said = go_test(environment, f"{PROGRAM}/...")
    passed, failed = count_of_go(said)
    if status != 0:
        print("---- Go's tests", said, sep="\n")
        packages = re.findall(r"^FAIL\t(\S+)", said, re.MULTILINE)
        if not packages:
            return passed, max(failed, 1)
        print("---- Go's tests that failed are run again, with all others of", ", ".join(packages))
        status, again = go_test(environment, *packages)
        failed_once = failed
        _, failed = count_of_go(again)
        passed += max(failed_once - failed, 0)
        print(again if status != 0 else "they passed this time")
    if status != 0 or not passed:
        failed = max(failed, 1)
    return passed, failed


def go_test(environment, *packages):
    """Runs Go's tests of these packages, and gives the status, nothing if they took too long, and what was said."""
    return run_until(time.monotonic() + 2 * SECONDS_OF_GO,
                     ["go", "test", "-p", "1", "-count=1", "-v", f"-timeout={SECONDS_OF_GO}s", *packages], env=environment)


def count_of_go(said):
    """How many of Go's tests passed and failed, by what go test said."""
    return (len(re.findall(r"^--- PASS", said, re.MULTILINE)), len(re.findall(r"^--- FAIL", said, re.MULTILINE)))


def run_class(module, name, environment, deadline):
    """Runs a class in a process of its own, which begins no case after the deadline; once more where it fails. Gives how many
    of its cases passed, failed and were skipped, and why the latter were."""
    if time.monotonic() > deadline:
        return 0, 0, 1, {"the time is over"}
    status, said = look(module, name, environment, deadline)
    if status not in (0, None):
        print(f"---- {name} failed, and is run again", said, sep="\n")
        status, said = look(module, name, environment, time.monotonic() + SECONDS_OF_A_CASE)
    print(*re.findall(r"NOTE: .*$", said, re.MULTILINE), sep="\n", end="\n" if "NOTE: " in said else "")
    skipped = set(re.findall(r"\.\.\. skipped ['\"](.*)['\"]$", said, re.MULTILINE))
    if status == 0:
        return *count_of(said), skipped
    print(f"---- {name}", said, sep="\n")
    if status is None:
        print(f"{name} hung: it was ended {SECONDS_OF_A_CASE} seconds after its last case can have begun")
        return 0, 1, 0, skipped
    passed, failed, count = count_of(said)
    return passed, max(failed, 1), count, skipped


def look(module, name, environment, deadline):
    """Runs a class that begins no case after the deadline, and gives its status and what it said."""
    from exporting import UNTIL
    return run_until(deadline + SECONDS_OF_A_CASE, [sys.executable, HERE / f"{module}.py", "-v", name],
                     env={**environment, UNTIL: str(deadline)})


def in_turn():
    """The classes, from the one on whose turn it is by the number of commits; from the first one without git."""
    from turn import turn
    first = turn() * COMMITS_APART % len(CLASSES)
    return CLASSES[first:] + CLASSES[:first]


def list_classes():
    """Prints what each class has, and each of its cases, by their docstrings."""
    for module, name in CLASSES:
        found = next(one for one in ast.parse((HERE / f"{module}.py").read_text()).body if isinstance(one, ast.ClassDef) and one.name == name)
        print(f"{module}.py {name}: {first_line(found)}")
        for case in found.body:
            if isinstance(case, ast.FunctionDef) and case.name.startswith("test_"):
                print(f"    {case.name.removeprefix('test_').replace('_', ' ')}: {first_line(case)}".removesuffix(": "))


def first_line(found):
    """A docstring on one line."""
    return " ".join((ast.get_docstring(found) or "").split())


def run_classes(classes, environment, deadline):
    """Runs all classes, some side by side, and gives how many cases passed and failed, and of each class how many were
    skipped, with a line that says why."""
    passed = failed = 0
    unfinished = []
    with ThreadPoolExecutor(SIDE_BY_SIDE) as workers:
        counts = workers.map(lambda one: run_class(*one, environment, deadline), classes)
        for (_, name), (good, bad, skipped, why) in zip(classes, counts):
            passed, failed = passed + good, failed + bad
            if skipped:
                unfinished.append((skipped, f"{skipped} cases of {name}: {'; '.join(sorted(why)) or 'no reason is told'}"))
    return passed, failed, unfinished


def main():
    if sys.argv[1:] == ["--list"]:
        return list_classes()
    if sys.argv[1:] == ["--help"]:
        return print(__doc__)
    lacking = missing()
    if lacking:
        return told(0, 0, [(ALL, f"all tests of the audit of real devices; missing: {', '.join(lacking)}")])
    deadline = time.monotonic() + (float(sys.argv[1]) if len(sys.argv) > 1 else 3600)
    with tempfile.TemporaryDirectory(prefix="syncthing-audit-tests-") as made:
        passed, failed, unfinished = run_all(Path(made), deadline)
    return told(passed, failed, unfinished)


def told(passed, failed, unfinished):
    """Prints what was skipped, and the last line; gives the status."""
    for _, what in unfinished:
        print("SKIPPED:", what)
    skipped = sum(number for number, _ in unfinished)
    print(f"{passed} passed, {failed} failed" + (f", {skipped} skipped" if skipped else ""))
    return int(failed > 0)


def run_all(room, deadline):
    """Builds the audit and runs all tests; gives how many passed and failed, and what was skipped."""
    from exporting import STAND_IN, auditor, go_environment
    program = auditor()
    print("tests of the audit of real devices of", " and ".join(said.partition(" \"")[0] for said in versions()) + ",",
          "answered by", "second/ in place of the program" if program == str(STAND_IN) else program)
    for_go = go_environment(room)
    status = build(room, for_go, deadline)
    if status is None:
        return 0, 0, [(ALL, "all tests of the audit of real devices; building wasn't done in time")]
    if status != 0:
        return 0, 1, []
    environment = {**os.environ, "SYNCTHING_AUDIT": str(room), "TMPDIR": str(room)}
    with ThreadPoolExecutor(1) as beside:
        by_go = beside.submit(run_go, for_go)
        passed, failed, unfinished = run_classes(in_turn() if len(sys.argv) > 1 else CLASSES, environment, deadline)
        passed_by_go, failed_by_go = by_go.result()
    return passed + passed_by_go, failed + failed_by_go, unfinished


sys.exit(main())
