"""What `syncaudit check` and `explain` should write of a check document."""

from reading import read_check
from things import Fault
from verdict import Cut

FAULTS = {181: "NotJson", 182: "VersionBad", 183: "Shape", 184: "Range", 185: "Twice", 186: "Unshared",
          187: "RecordBad", 188: "SequenceBad", 189: "LinkBad"}


def printed(text):
    return b"".join(b"\\x%02x" % byte if byte < 0x21 or byte in (0x5c, 0x7f) else bytes([byte]) for byte in text)


def fault_line(reason, folder, name, device):
    place = b"" if device is None else b" on %d" % device
    return b"%s %s %s%s" % (reason.encode(), folder, printed(name), place)


def report(read):
    cut = Cut(read)
    return report_of(cut, b"settled", cut.first_fault(read["rows"]))


def report_of(cut, good, fault):
    """The report on a cut that is good, in this word, or has this fault."""
    lines = [good if fault is None else b"not " + good + b": " + fault_line(*fault)]
    for folder, devices in cut.folders.items():
        names = cut.known(folder)
        deleted = sum(not any(name in device.store for device in devices) for name in names)
        lines.append(b"folder %s: %d names, %d deleted, %d devices" % (folder, len(names), deleted, len(devices)))
    return lines, 0 if fault is None else 1


def explanation(read):
    lines = [fault_line(*fault) for fault in Cut(read).all_faults(read["rows"])]
    return lines or [b"settled"], 1 if lines else 0


def refusal(fault):
    line = b"refused: %d %s" % (fault.number, FAULTS[fault.number].encode())
    if fault.place:
        folder, device, name = fault.place
        line += b" %s %s %s" % (folder or b"-", b"-" if device is None else b"%d" % device,
                                b"-" if name is None else printed(name))
    return [line], 2


def written(lines, status):
    """The bytes of these lines, and the exit status."""
    return b"".join(line + b"\n" for line in lines), status


def answers(document):
    """What `syncaudit check` should write for the document, and its exit status; and what `syncaudit explain` should, but
    for what is indented."""
    try:
        read = read_check(document)
    except Fault as fault:
        return (written(*refusal(fault)),) * 2
    return written(*report(read)), written(*explanation(read))


def answer(document):
    """What `syncaudit check` should write, and its exit status."""
    return answers(document)[0]
