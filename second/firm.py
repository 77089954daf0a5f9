#!/usr/bin/env python3
"""Firm cuts, read a second time. A cut is firm for a list of rows where it is settled, and where for each row with the
winner's version v each device that has an own record has it at v, and each record that a device has from elsewhere has
a version that is at most v. Then nobody wants anything, by whatever rule it chooses.

    second/firm.py < DOCUMENT
"""

import sys

import reading
import reports
import verdict
from things import Fault
from verdict import is_at_most


def has_version(device, name, winner):
    """Whether the own record, if there is one, has the winner's version."""
    return name not in device.own or device.own[name]["version"] == winner["version"]


def are_at_most(part, name, winner):
    """Whether each of these records of the name that isn't invalid has at most the winner's version."""
    return all(entry["invalid"] or is_at_most(entry["version"], winner["version"]) for entry in part.get(name, ()))


FIRM_REASONS = [
    ("VersionDiffers", has_version),
    ("ViewNotBelow", lambda device, name, winner: are_at_most(device.viewed, name, winner)),
    ("FlightNotBelow", lambda device, name, winner: are_at_most(device.coming, name, winner)),
    ("PullNotBelow", lambda device, name, winner: are_at_most(device.pulls, name, winner)),
]


def first_fault(cut, rows):
    """Why a cut isn't firm for these rows: the first reason that fails, with folder, name and device; what keeps it
    from being settled comes first. None where it is firm."""
    return cut.first_fault(rows) or cut.first_failing(FIRM_REASONS, rows)


def report(read):
    """The lines on a cut, and the exit status."""
    cut = verdict.Cut(read)
    return reports.report_of(cut, b"firm", first_fault(cut, read["rows"]))


def explanation(read):
    """A line for all that keeps a cut from being firm, and the exit status."""
    faults = verdict.Cut(read).all_faults(read["rows"], (*verdict.DEVICE_REASONS, *FIRM_REASONS))
    lines = [reports.fault_line(*fault) for fault in faults]
    return lines or [b"firm"], 1 if lines else 0


def answers(document):
    """What a program should write that is asked whether the document's cut is firm, and its exit status; and what one
    should that explains it, but for details."""
    try:
        read = reading.read_check(document)
    except Fault as fault:
        return (reports.written(*reports.refusal(fault)),) * 2
    return reports.written(*report(read)), reports.written(*explanation(read))


if __name__ == "__main__":
    (written, exit_status), _ = answers(sys.stdin.buffer.read())
    sys.stdout.buffer.write(written)
    sys.exit(exit_status)
