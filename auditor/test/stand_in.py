#!/usr/bin/env python3
"""Stands for the program `syncaudit` where it isn't built: `certify`, `converge`, `rows`, and `check`, `firm` and
`explain`, each also with `--certify`, by the second reading in second/. It explains without what is indented.

    auditor/test/stand_in.py certify < CUT
    auditor/test/stand_in.py check < DOCUMENT
    auditor/test/stand_in.py firm < DOCUMENT
    auditor/test/stand_in.py explain < DOCUMENT
    auditor/test/stand_in.py check --certify < CUT
    auditor/test/stand_in.py converge < CUT
    auditor/test/stand_in.py rows [--firm | --converge] [--explain] < ROWS

CUT is what is exported, without a certificate. Where $OLDER is set, it knows no stream of rows, as an older program.
"""

import os
import sys

from documents import certified  # first: it finds second/
import converge
import firm
import row_stream
import under_winners
from reports import answer, answers, printed, refusal
from things import Fault


def certify(written):
    """What `syncaudit certify` writes for the document, and its exit status."""
    try:
        made, unwon = certified(written)
    except Fault as fault:
        lines, status = refusal(fault)
        return lines[0] + b"\n", status
    if unwon:
        return b"not settled: NotWinner %s %s\n" % (unwon[0], printed(unwon[1])), 1
    return made, 0


def explain(written):
    """What `syncaudit explain` writes for the document but for what is indented, and its exit status."""
    return answers(written)[1]


def say_whether_firm(written):
    """What `syncaudit firm` writes for the document, and its exit status."""
    return firm.answers(written)[0]


def say_whether_it_converges(written):
    """What `syncaudit converge` writes for the document, and its exit status."""
    return converge.answers(written)[0]


def answer_rows(stream, flags):
    """What `syncaudit rows` writes for the stream with these flags but for what is indented, and its exit status."""
    aim = "converging" if "--converge" in flags else "firm" if "--firm" in flags else "settled"
    return row_stream.answer(stream, aim, "--explain" in flags)


COMMANDS = {"certify": certify, "check": answer, "explain": explain, "firm": say_whether_firm, "converge": say_whether_it_converges}
STATUS_OF_USAGE = 3


def main():
    word, *flags = sys.argv[1:]
    if word not in (*COMMANDS, "rows") or word == "rows" and "OLDER" in os.environ:
        sys.exit(STATUS_OF_USAGE)
    document = sys.stdin.buffer.read()
    if word == "rows":
        said, status = answer_rows(document, flags)
    else:
        said, status = under_winners.answers(document)[word] if flags else COMMANDS[word](document)
    sys.stdout.buffer.write(said)
    sys.stdout.flush()
    sys.exit(status)


main()
