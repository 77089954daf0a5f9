"""What `syncaudit` should write with `--certify`: of a cut under the winners of its names, where some may have none."""

import firm
import reading
import reports
import verdict
from cluster.cut import certify_part
from things import Fault


def as_unwon(fault):
    """The fault as it is told: a name that has no row among the winners has no winner."""
    reason, *place = fault
    return ("NotWinner" if reason == "NameMissing" else reason, *place)


def explanation(faults, good):
    """A line for each of these faults, and the exit status."""
    lines = [reports.fault_line(*as_unwon(fault)) for fault in faults]
    return lines or [good], 1 if lines else 0


def answers(document):
    """What each command should write, and its exit status."""
    try:
        read = reading.read_cut(document)
    except Fault as fault:
        refused = reports.written(*reports.refusal(fault))
        return dict.fromkeys(("check", "firm", "explain", "explain --firm"), refused)
    rows, without = certify_part(read)
    cut = verdict.Cut(read)
    unwon = ("NotWinner", *without[0], None) if without else None
    told = {
        "check": reports.report_of(cut, b"settled", unwon or cut.first_fault(rows)),
        "firm": reports.report_of(cut, b"firm", unwon or firm.first_fault(cut, rows)),
        "explain": explanation(cut.all_faults(rows), b"settled"),
        "explain --firm": explanation(cut.all_faults(rows, (*verdict.DEVICE_REASONS, *firm.FIRM_REASONS)), b"firm"),
    }
    return {command: reports.written(*one) for command, one in told.items()}
