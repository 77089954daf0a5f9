#!/usr/bin/env python3
"""Compares the program's answers with those of a second reading (reading.py): of `check`, `firm` and `explain` (with
`--firm` too), each with `--certify` too, of `converge` and `explain --converge`, and of `certify` (with `--partial` too); on the examples, on
documents with something as great as it may be or one more, and on random documents.

    second/compare.py [COUNT [SEED]]

COUNT random documents (1000 if not given): small clusters, most of them nearly settled, two of five with a mistake made
somewhere in their tree or text, a few at a limit. The program must be built, as SYNCAUDIT_BUILD=1 ./syncaudit does.
"""

import pathlib
import subprocess
import sys
from collections import Counter

import converge
import firm
import reading
import reports
import things
import under_winners
from cluster.cut import NoWinner, certify, certify_part
from documents import Documents, at_limits

TOP = pathlib.Path(__file__).resolve().parent.parent
PROGRAM = TOP / "crates/syncaudit/out/syncaudit"


def is_hint(said, written):
    """Whether one line stands on standard error beside a fault that has no place, and else nothing."""
    has_no_place = written.split()[1:2] in ([b"181"], [b"182"], [b"183"], [b"184"])
    return said.count(b"\n") == 1 and said.endswith(b"\n") if has_no_place else said == b""


def without_details(written):
    """The lines that aren't indented."""
    return b"".join(line for line in written.splitlines(keepends=True) if not line.startswith(b"  "))


def run_with_details(command, document):
    """What the program writes, and its exit status."""
    ran = subprocess.run([PROGRAM, *command.split()], input=document, capture_output=True, check=False)
    if not is_hint(ran.stderr, ran.stdout):
        sys.exit(f"{command}: on standard error stands {ran.stderr}, beside {ran.stdout}")
    return ran.stdout, ran.returncode


def run(command, document):
    """What the program writes, an explanation without its details, and its exit status."""
    written, status = run_with_details(command, document)
    return without_details(written) if command.startswith("explain") else written, status


def tell_difference(command, document, wanted, told):
    """Ends with the document that is answered in two ways."""
    print(f"{command} differs:", document.decode(errors="replace")[:100000], "wanted:", wanted, "program:", told, sep="\n")
    sys.exit(1)


def in_order(read):
    """What was read, its lists in the order in which they are written; views of nothing are left out."""
    def by(name, items):
        return sorted(items, key=lambda item: item[name])

    def share(one):
        views = [item | {"records": by("name", item["records"])} for item in by("of", one["views"])
                 if item["index_id"] or item["max"]]
        return one | {"own": by("name", one["own"]), "store": by("name", one["store"]), "views": views,
                      "pulls": by("name", one["pulls"])}
    folders = [folder | {"shares": by("device", map(share, folder["shares"]))} for folder in by("folder", read["folders"])]
    return read | {"folders": folders, "links": sorted(read["links"], key=lambda link: (link["a"], link["b"]))}


def compare_certified(document):
    """Whether `certify` writes the cut of the document with the list of its winners, or why not."""
    told = run("certify", document)
    try:
        read = reading.read_cut(document)
        wanted = in_order(read | {"rows": certify(read)})
    except things.Fault as fault:
        wanted = reports.written(*reports.refusal(fault))
    except NoWinner as none:
        wanted = b"not settled: NotWinner %s %s\n" % (none.folder, reports.printed(none.name)), 1
    if isinstance(wanted, tuple):
        is_same = told == wanted
    else:
        is_same = told[1] == 0 and told[0].count(b"\n") == 1 and reading.read_check(told[0]) == wanted
    if not is_same:
        tell_difference("certify", document, wanted, told)


def compare_part(document):
    """Whether `certify --partial` writes the cut of the document with the winners of all names that have one."""
    ran = subprocess.run([PROGRAM, "certify", "--partial"], input=document, capture_output=True, check=False)
    try:
        read = reading.read_cut(document)
    except things.Fault as fault:
        wanted = reports.written(*reports.refusal(fault))
        if (ran.stdout, ran.returncode) != wanted:
            tell_difference("certify --partial", document, wanted, (ran.stdout, ran.returncode))
        return
    rows, without = certify_part(read)
    lines = b"".join(b"not settled: NotWinner %s %s\n" % (folder, reports.printed(name)) for folder, name in without)
    status = 6 if without else 0
    if (reading.read_check(ran.stdout) != in_order(read | {"rows": rows})) or (ran.stderr, ran.returncode) != (lines, status):
        tell_difference("certify --partial", document, (rows, lines, status), (ran.stdout, ran.stderr, ran.returncode))


def compare(document):
    """Compares what is told of a document, and answers what `check` should write."""
    check, explain = reports.answers(document)
    whether_firm, why_not = firm.answers(document)
    for command, wanted in (("check", check), ("firm", whether_firm), ("explain", explain), ("explain --firm", why_not)):
        told = run(command, document)
        if told != wanted:
            tell_difference(command, document, wanted, told)
    for command, wanted in under_winners.answers(document).items():
        told = run(f"{command} --certify", document)
        if told != wanted:
            tell_difference(f"{command} --certify", document, wanted, told)
    for command, wanted in zip(("converge", "explain --converge"), converge.answers(document)):
        told = run(command, document)
        if told != wanted:
            tell_difference(command, document, wanted, told)
    compare_certified(document)
    compare_part(document)
    return check[0]


def kind_of(answer):
    """The first words of an answer."""
    words = answer.split(b"\n")[0].split()
    return b" ".join(words[:3] if words[:1] != [b"settled"] else words).decode()


def main():
    count = int(sys.argv[1]) if len(sys.argv) > 1 else 1000
    random = Documents(int(sys.argv[2]) if len(sys.argv) > 2 else 1)
    examples = [path.read_bytes() for path in sorted((TOP / "examples").rglob("*.json"))]
    limits = list(at_limits())
    kinds = Counter(map(kind_of, map(compare, examples + limits)))
    kinds.update(kind_of(compare(random.bytes())) for _ in range(count))
    for kind, number in kinds.most_common():
        print(f"{number:7} {kind}")
    print(f"{len(examples)} examples, {len(limits)} documents at limits and {count} random ones: the same answers")


if __name__ == "__main__":
    main()
