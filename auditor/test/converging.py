#!/usr/bin/env python3
"""What is proved of names that come right by themselves, beside what real devices came to. In a kept round of a storm (storm.py --keep) each
file whose records lead to one end, by the second reading of `syncaudit converge`, must come to what the record that prevails says, on all
devices and without a conflict copy.

    auditor/test/converging.py DIRECTORY      with a directory for each round
"""

import json
import subprocess
import sys
import tempfile
from pathlib import Path

import documents  # noqa: F401  first: it finds second/
from exporting import built, shown
from foretold import real_places, shapes_of

import converge
import prevails
import reading
import verdict

FILE = 0
KINDS = "ignored,unreadable,changing,special,names,targets,records,rescan,large,absent,encrypted,unshared,unknown"


def cuts_of(audit, parts, room):
    """The cuts of the documents that are made of these parts."""
    subprocess.run([audit, "export", *parts, "--leave-out", KINDS, "--into", room], check=True, capture_output=True)
    for path in sorted(room.glob("cut-*.json")):
        yield verdict.Cut(reading.read_cut(path.read_bytes()), prevails.Sharer)


def converges(at):
    """Whether nothing hinders the name."""
    return all(holds(at) for _, holds in converge.OF_NAMES) and all(holds(at, device) for _, holds in converge.OF_DEVICES for device in at.devices)


def is_of_files(at):
    """Whether all that is known of it are files and their deletions: of directories the proof says nothing."""
    return b"/" not in at.name and all(record["kind"] == FILE for record in at.records)


def names_of(audit, part):
    """What a device has of each name, from its part."""
    told = [json.loads(line) for line in shown(audit, part)]
    return {line["name"]["name"]: line["name"] for line in told if isinstance(line.get("name"), dict)}


def has_other_mode(name):
    """Whether a scan of the device would record another mode than its index has. A document doesn't tell modes."""
    return "own" in name and "disk" in name and name["own"].get("permissions") != name["disk"].get("permissions")


def shape_of(record):
    """What stands at a name where its record is taken over, and no copies of it."""
    return (None if record.get("deleted") else ("file", record["content"]["size"], record["content"]["hash"]), ())


def judge(audit, kept):
    """Prints which converging files of a round came to something else, and counts them and all."""
    made = json.loads((kept / "round.json").read_text())
    parts = [kept / f"{name}.part" for name in made["names"]]
    had = [names_of(audit, part) for part in parts]
    known = {name for names in had for name in names}
    ends = [{device: shapes_of(real_places(end[device], known)) for device in made["names"]} for end in made["ends"]]
    wrong = count = 0
    with tempfile.TemporaryDirectory() as room:
        for cut in cuts_of(audit, parts, Path(room) / "documents"):
            for _, at in converge.names_of(cut):
                if not is_of_files(at) or not converges(at) or all(at.is_at_top(device) for device in at.devices):
                    continue
                name, top = at.name.decode(), at.tops()[0]
                if any(has_other_mode(names.get(name, {})) for names in had):
                    continue
                owns = [names[name]["own"] for names in had if "own" in names.get(name, {})]
                record = next(own for own in owns if dict(own.get("version", [])) == top["version"])
                for run, end in enumerate(ends):
                    came = {device: shapes.get(name, (None, ())) for device, shapes in end.items()}
                    count += 1
                    if any(shape != shape_of(record) for shape in came.values()):
                        wrong += 1
                        print(f"round {made['seed']}, run {run}: {name} came to {came}, not to {shape_of(record)}")
    return wrong, count


def main(directory):
    wrong = count = 0
    with tempfile.TemporaryDirectory(prefix="converging-") as room:
        audit = built(Path(room)) / "syncthing-audit"
        for kept in sorted(path.parent for path in Path(directory).glob("*/round.json")):
            missed, all_of = judge(audit, kept)
            wrong, count = wrong + missed, count + all_of
    print(f"{count - wrong} of {count} ends of converging files are what prevails")
    return bool(wrong or not count)


if __name__ == "__main__":
    raise SystemExit(main(*sys.argv[1:]))
