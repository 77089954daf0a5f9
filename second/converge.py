"""Whether a cut converges, read a second time: the conditions of prevails.py that don't hold, by their reasons; and how many pairs
of a name and a device aren't yet at the winner.

    second/converge.py < DOCUMENT
"""

import sys

import prevails
import reading
import reports
import verdict
from things import Fault

# The reasons in their order, each with what it asks of a name as a whole, or of each device that shares the folder.
OF_NAMES = [
    ("NothingPrevails", prevails.has_top),
    ("Concurrent", prevails.is_in_line),
    ("ContentDiffers", prevails.agrees),
]
OF_DEVICES = [
    ("LocalOnly", prevails.has_no_local_change),
    ("StoreUnclean", prevails.is_clean),
    ("StoreDiffers", prevails.has_own_content),
    ("SendOnly", prevails.takes_changes),
    ("WouldCopy", prevails.counts_own),
]


def names_of(cut):
    """Each known name of the cut, with its folder, in order."""
    for folder, devices in cut.folders.items():
        for name in sorted(cut.known(folder)):
            yield folder, prevails.Name(devices, name)


def all_faults(cut):
    """Each reason that fails, with folder, name and device, in order; none where the cut converges."""
    for reason, holds in OF_NAMES:
        for folder, at in names_of(cut):
            if not holds(at):
                yield reason, folder, at.name, None
    for reason, holds in OF_DEVICES:
        for folder, at in names_of(cut):
            for device in at.devices:
                if not holds(at, device):
                    yield reason, folder, at.name, device.number


def has_come(at, device):
    """Whether the device's record is at the winner of the name, and no local change: all tops of the name tell one content, and it
    is at them."""
    contents = [verdict.content(top) for top in at.tops()]
    agree = all(one == other for one in contents for other in contents)
    return agree and at.is_at_top(device) and prevails.has_no_local_change(at, device)


def progress(cut):
    """The line of each folder: what `check` says of it, and how many pairs of a known name and a device aren't yet at the winner."""
    for line, (folder, devices) in zip(reports.report_of(cut, b"converging", None)[0][1:], cut.folders.items()):
        names = cut.known(folder)
        behind = [(name, device.number) for name in names for device in devices if not has_come(prevails.Name(devices, name), device)]
        yield b"%s, %d pairs not yet at the winner" % (line, len(behind))


def report_of(cut, fault):
    """The lines on a cut that converges, or has this fault, and the exit status."""
    line = b"converging" if fault is None else b"not converging: " + reports.fault_line(*fault)
    return [line, *progress(cut)], 0 if fault is None else 1


def answers(document):
    """What `syncaudit converge` should write, and its exit status; and what `explain --converge` should, but for what is indented."""
    try:
        read = reading.read_cut(document)
    except Fault as fault:
        return (reports.written(*reports.refusal(fault)),) * 2
    cut = verdict.Cut(read, prevails.Sharer)
    faults = list(all_faults(cut))
    lines = [reports.fault_line(*fault) for fault in faults] or [b"converging"]
    return reports.written(*report_of(cut, next(iter(faults), None))), reports.written(lines, 1 if faults else 0)


if __name__ == "__main__":
    written, exit_status = answers(sys.stdin.buffer.read())[0]
    sys.stdout.buffer.write(written)
    sys.exit(exit_status)
