"""What was foretold of real devices, beside what came."""

import dataclasses
import json
import subprocess

from quick import MARKER, tree_of
from syncthing import FOLDER

NOTHING = (None, ())


@dataclasses.dataclass
class Finding:
    """Whether one name came to an end that was foretold, in one run."""

    name: str
    run: int
    is_true: bool
    is_all: bool
    ends: int
    came: object
    foretold: list

    def __str__(self):
        lines = [f"UNTRUE: {self.name} in run {self.run} ({'all orders' if self.is_all else 'walks'}, {self.ends} ends)", f"    came     {self.came}"]
        return "\n".join(lines + [f"    foretold {one}" for one in self.foretold[:4]])


def make_parts(program, devices, room):
    """Makes the parts of stopped devices."""
    made = []
    for device in devices:
        made.append(room / f"{device.name}.part")
        subprocess.run([program, "part", "--home", device.home, "-o", made[-1]], check=True, capture_output=True)
    return made


def foretell(program, parts, *words):
    """What the program foretells of devices, from their parts."""
    ran = subprocess.run([program, "--folder", FOLDER, *words, *parts], capture_output=True, text=True)
    if ran.returncode:
        raise AssertionError(ran.stderr)
    return json.loads(ran.stdout)


def root_of(name):
    """What a conflict copy is a copy of."""
    head, _, rest = name.rpartition(MARKER)
    _, dot, extension = rest.partition(".")
    return head + dot + extension


def shapes_of(places):
    """For each name what stands there and in its copies, of one device: a set, since two copies of the same bytes are as one."""
    made = {}
    for name, is_copy, node in places:
        there = made.setdefault(name, [None, set()])
        if is_copy:
            there[1].add(node)
        else:
            there[0] = node
    return {name: (there, tuple(sorted(copies))) for name, (there, copies) in made.items()}


def model_places(disk):
    """What the forecast has of one disk."""
    for place in disk or []:
        node = place["Node"]
        kind, content = node["Type"], node["Content"]
        more = {"file": (content["size"], content.get("content", "")), "symlink": (node["Target"],), "directory": ()}[kind]
        yield place["Name"], place["IsCopy"], (kind, *more)


def real_places(disk, known):
    """What a real disk has."""
    for name, node in disk.items():
        is_copy = MARKER in name and name not in known
        root = name
        while is_copy and root not in known and MARKER in root:
            root = root_of(root)
        yield root, is_copy, tuple(node)


def compare(forecast, names, ends):
    """A finding for each name of the forecast and each run."""
    known = {name for answer in forecast["answers"] for name in answer["Names"]}
    real = [{name: shapes_of(real_places(end[name], known)) for name in names} for end in ends]
    nothing = (None, ())
    for run, end in enumerate(real):
        for device, shapes in end.items():
            for name in shapes:
                assert name in known, f"{name} of {device} wasn't foretold at all"
    made = []
    for answer in forecast["answers"]:
        foretold = [[shapes_of(model_places(disk)) for disk in end["Disks"]] for end in answer["Ends"] or []]
        for name in answer["Names"]:
            told = sorted({tuple(shapes.get(name, nothing) for shapes in end) for end in foretold}, key=str)
            for run, end in enumerate(real):
                came = tuple(end[device].get(name, nothing) for device in names)
                made.append(Finding(name, run, came in told, answer["IsAll"], len(told), came, told))
    return made


def places_of(name, things, device):
    """What a told end has at a name on a device."""
    for thing in things:
        if device in thing["devices"]:
            more = {"file": (thing.get("size"), thing.get("content")), "symlink": (thing.get("target"),), "directory": ()}[thing["type"]]
            yield name, thing.get("copy", False), (thing["type"], *more)


def ends_of(fate, ids):
    """The ends that an answer tells of a name, as shapes of each device."""
    return [tuple(shapes_of(places_of(fate["name"], end, device)).get(fate["name"], NOTHING) for device in ids) for end in fate["ends"]]


def shapes_on(device, known):
    """For each name what stands there and in its copies on a device's disk now."""
    return shapes_of(real_places(tree_of(device.files), known))
