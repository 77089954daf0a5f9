"""What a scenario is read as, and what its steps lead to."""

import hashlib
import json
import subprocess
from pathlib import Path

from scenario import announce, edit, finish, meet, messages, pull, put, scenario, share, take, tell

HERE = Path(__file__).resolve().parent
MOST_SECONDS, LEAST_SECONDS = 2**63 - 1, -(2**63)


def steps(program):
    """A step alone, where no folder is shared."""
    for what, step, wanted in (
        ("a step", ["connect", 1, 2], "step 1: 162 NotShared"),
        ("a step of too many devices", ["connect", 1, 2, 3], "refused: 183 Shape"),
        ("a step of device 0", ["connect", 1, 0], "refused: 184 Range"),
    ):
        text = json.dumps({"version": 1, "folders": [], "links": [], "steps": [step]})
        program.expect(what, wanted, program.first_line(["run"], text))


def kept(program, name, seconds, device):
    """What is told first where this device had a file of this name and time, which the latest file of another device took
    over."""
    other = 2 if device == 1 else 1
    low, high = sorted((device, other))
    return program.led(
        [edit(other, name, MOST_SECONDS, modified_ns=1, text="hello"), ["scan", other, "docs", name],
         edit(device, name, seconds, text="abc"), ["scan", device, "docs", name],
         ["connect", low, high], ["begin", low, high], ["begin", high, low], ["deliver", high, low], ["deliver", low, high],
         ["announce", other, device, "docs"], ["deliver", device, other],
         ["pull", device, "docs", name], ["ask", device, other, "docs", name], ["deliver", other, device],
         ["deliver", device, other], ["finish", device, "docs", name]],
        [share(device, index_id=11), share(other, index_id=12)], [[low, high]])


def conflict_names(program):
    """The names under which losing files are kept, which aren't scanned yet. The first four are this profile's own
    examples."""
    for name, seconds, device, copy in (
        ("notes.txt", 2000, 2, "notes.sync-conflict-2000-0000000000000002.txt"),
        ("README", 2000, 2, "README.sync-conflict-2000-0000000000000002"),
        (".profile", 2000, 2, ".profile.sync-conflict-2000-0000000000000002"),
        ("a.d/b", 2000, 2, "a.d/b.sync-conflict-2000-0000000000000002"),
        ("a.tar.gz", 0, 18364758544493064720, "a.tar.sync-conflict-0-fedcba9876543210.gz"),
        ("a/.b.c", -1, 2**64 - 1, "a/.b.sync-conflict--1-ffffffffffffffff.c"),
        ("a/.b", LEAST_SECONDS, 1, "a/.b.sync-conflict--9223372036854775808-0000000000000001"),
        ("a.", MOST_SECONDS, 10, "a.sync-conflict-9223372036854775807-000000000000000a."),
        # '.sync-conflict-2000-' and 16 digits are 36 bytes, and a name has 1024 at most.
        ("n" * 988, 2000, 2, "n" * 988 + ".sync-conflict-2000-0000000000000002"),
        ("n" * 988, -200, 2, "n" * 988 + ".sync-conflict--200-0000000000000002"),
    ):
        program.expect(f"the name {name}", f"not settled: NotWinner docs {copy}", kept(program, name, seconds, device))
    for letters in (989, 1024):
        program.expect(f"{letters} letters", "step 16: 103 NameBad", kept(program, "n" * letters, 2000, 2))


def records_in_order(program):
    """A name that is put again gets the next sequence, and is sent behind those put before."""
    end = program.ended(put("a", 1) + put("b", 1) + put("a", 2) + put("c", 1) + meet() + announce())
    sent = messages((True, ("b", 2), ("a", 3), ("c", 4)))
    program.expect("records in order", ([4, 0], [("a", 3), ("b", 2), ("c", 4)], [], (True, 1, [], sent)),
                   ([end.share(device)["max"] for device in (1, 2)], end.names(1), end.names(2), end.link()))


def full_index(program):
    """A full index takes a change of a name that it has; so device 2 has a full view after five messages."""
    files = [step for name in range(1, 4097) for step in put(str(name), 1)]
    end = program.ended(files + put("7", 2) + meet() + 5 * tell())
    seen = [(index_id, most, len(names)) for device in (1, 2) for index_id, most, names in end.views(device)]
    program.expect("a full index", [4097, 0], [end.share(device)["max"] for device in (1, 2)])
    program.expect("a full view", [(12, 0, 0), (11, 4097, 4096)], seen)


def views(program):
    """A view begins with what an Index brings, and an Index Update adds to it."""
    begin = [step for seconds in range(1, 6) for step in put("c", seconds)] + meet() + tell()
    program.expect("a view of an Index", [(11, 5, [("c", 5)])], program.ended(begin).views(2))
    program.expect("a view of more", [(11, 7, [("a", 7), ("c", 5)])],
                   program.ended(begin + put("a", 1) + put("a", 2) + tell()).views(2))


def sent_anew(program):
    """What device 1 sends anew, once the link was lost after it announced its first three records and these steps were
    made."""
    for what, steps_between, wanted in (
        ("all, where nothing had arrived", [], messages((True, ("a", 1), ("b", 2), ("c", 3)))),
        ("what is new, where all had arrived", [["deliver", 2, 1]] + put("d", 1), messages((False, ("d", 4)))),
        ("nothing, where nothing is new", [["deliver", 2, 1]], messages()),
    ):
        end = program.ended(put("a", 1) + put("b", 1) + put("c", 1) + meet() + announce() + steps_between
                            + [["lose", 1, 2]] + meet() + announce())
        program.expect(what, (True, 2, [], wanted), end.link())


def stores(program):
    """Under each name stands what was put there last, and the names rise; nothing is left of what was removed. Of equal
    bytes the time alone is taken over."""
    remove = ["remove", 1, "docs", "c"]
    end = program.ended(put("b", 1, hex="42") + put("a", 1, hex="41") + put("b", 1, hex="43")
                        + [edit(1, "c", 1, hex="44"), remove, remove])
    node = {"hex": "41", "modified_ns": 0, "modified_s": 1, "name": "a", "target": "", "type": 0}
    program.expect("what is stored", ([node, node | {"name": "b", "hex": "43"}], []),
                   (end.share(1)["store"], end.share(2)["store"]))
    late = edit(1, "a", -7, modified_ns=999999999, hex="41")
    end = program.ended(put("a", 1, hex="41") + meet() + tell() + take("a") + [late, ["scan", 1, "docs", "a"]] + tell()
                        + pull("a") + finish("a"))
    wanted = [node | {"modified_ns": 999999999, "modified_s": -7}]
    program.expect("another time", (wanted, wanted), (end.share(1)["store"], end.share(2)["store"]))


def on_its_way(program):
    """What is on its way after these further steps, where device 1 told twice of a file, and device 2 once."""
    begin = (put("hello", 1) + meet() + announce() + put("todo", 1) + announce()
             + [edit(2, "other", 1), ["scan", 2, "docs", "other"], ["announce", 2, 1, "docs"]])
    other, hello, todo = (True, ("other", 1)), (True, ("hello", 1)), (False, ("todo", 2))
    for what, more, wanted in (
        ("what is sent", [], (True, 1, messages(other), messages(hello, todo))),
        ("what is left", [["deliver", 2, 1]], (True, 1, messages(other), messages(todo))),
        ("a lost link", [["lose", 1, 2]], (False, 1, [], [])),
        ("a link anew", [["lose", 1, 2], ["connect", 1, 2]], (True, 2, [], [])),
    ):
        program.expect(what, wanted, program.ended(begin + more).link())


def large(kind):
    """A scenario that comes to a limit."""
    return subprocess.run([HERE.parent / "large.sh", kind], capture_output=True, text=True, check=True).stdout


def refused_steps(program, text):
    """The lines that tell which steps of the scenario are refused."""
    lines, _ = program.run(["run"], text)
    return [line for line in lines if line.startswith("step ")]


def full_link(program):
    """Where one end is full, the other takes a message. A request that comes where no answer can be sent waits until one
    can be."""
    full = json.loads(large("messages"))
    full["steps"] += [["edit", 2, "docs", {"name": "other", "type": 1, "modified_s": 1}], ["scan", 2, "docs", "other"],
                      ["announce", 2, 1, "docs"]]
    program.expect("a full link", ["step 3078: 152 LinkFull"], refused_steps(program, json.dumps(full)))
    program.expect("a request over a full link", ["step 3084: 152 LinkFull"], refused_steps(program, large("request")))


def links(program):
    """A link's smaller device comes first, and none stands twice."""
    for what, linked, wanted in (
        ("a link", [[1, 2]], "settled"),
        ("a link from the greater device", [[2, 1]], "refused: 189 LinkBad - 2 -"),
        ("a link of one device", [[2, 2]], "refused: 189 LinkBad - 2 -"),
        ("a link to a text", [[1, "2"]], "refused: 183 Shape"),
        ("a link to no device", [[1, 0]], "refused: 184 Range"),
        ("a link twice", [[1, 2], [1, 2]], "refused: 185 Twice - 1 -"),
        ("a link to a device that is not there", [[1, 3]], "refused: 189 LinkBad - 1 -"),
    ):
        program.expect(what, wanted, program.led([], [share(1), share(2)], linked))


def devices_and_folders(program):
    """How many devices and folders there may be, and that none stands twice."""
    def devices(count):
        return [share(device, "send-only", 1) for device in range(1, count + 1)]

    def folders(count):
        listed = [{"folder": f"f{number}", "devices": []} for number in range(1, count + 1)]
        return json.dumps({"version": 1, "folders": listed, "links": [], "steps": []})

    program.expect("16 devices", "settled", program.led([], devices(16), []))
    program.expect("17 devices", "refused: 184 Range", program.led([], devices(17), []))
    program.expect("a device twice", "refused: 185 Twice docs 2 -", program.led([], devices(2) + devices(2)[1:], []))
    program.expect("16 folders", "settled", program.first_line(["run"], folders(16)))
    program.expect("17 folders", "refused: 184 Range", program.first_line(["run"], folders(17)))


def blocks(program):
    """The blocks of files, with hashes from outside. They are those of the store's files, which device 2 doesn't have."""
    contents = [b"", b"abc", bytes(131072), bytes(131073)]
    steps_made = [step for name, content in zip("abcd", contents) for step in put(name, 1, hex=content.hex())]
    end = program.ended(steps_made)
    wanted = [[hashlib.sha256(content[at:at + 131072]).hexdigest() for at in range(0, max(len(content), 1), 131072)]
              for content in contents]
    program.expect("blocks", wanted, [one["blocks"] for one in end.share(1)["own"]])
    program.expect("blocks of what is stored", "not settled: RecordMissing docs a on 2",
                   program.first_line(["check"], end.text))


def overtaken_pull(program):
    """Device 1, whose index begins anew, pulls its own file back from device 2. Meanwhile it changes the file twice. Its pull
    is dropped then, which is no refusal, and is gone: only a second end of it is refused."""
    sent_back = [["announce", 2, 1, "docs"], ["deliver", 1, 2], ["pull", 1, "docs", "hello"]]
    end = [["finish", 1, "docs", "hello"]]
    steps_made = (put("hello", 1000, text="hello") + meet() + tell() + take("hello") + [["reset", 1, 21]] + meet() + sent_back
                  + put("hello", 2000, text="abc") + put("hello", 3000, text="abcd") + end + end)
    told, _ = program.run(["run"], scenario(steps_made, [share(1), share(2)], [[1, 2]], version=2))
    program.expect("a pull that changes overtake", f"step {len(steps_made)}: 142 NotNeeded", told[0])
    program.expect("the record after it", "docs hello 1 0 present 1:2 131072", told[-1])


ROWS = (steps, conflict_names, records_in_order, full_index, views, sent_anew, stores, on_its_way, full_link, links,
        devices_and_folders, blocks, overtaken_pull)
