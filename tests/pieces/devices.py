"""How a cluster begins, what two devices tell and ask each other in a session, and what they record of their files."""

from scenario import SCAN, announce, ask, edit, finish, meet, messages, pull, put, record, take, tell

NOTHING = messages()


def begun(program):
    """A cluster without steps, as it is written."""
    wanted = ('{"certificate":[],"cut":{"folders":[{"devices":['
              '{"device":1,"index_id":11,"kind":"send-receive","max":0,"own":[],"pulls":[],"store":[],"views":[]},'
              '{"device":2,"index_id":12,"kind":"receive-only","max":0,"own":[],"pulls":[],"store":[],"views":[]}],'
              '"folder":"docs"}],"links":[{"a":1,"b":2,"epoch":0,"to_a":[],"to_b":[],"up":false}]},"version":1}')
    end = program.ended([], "receive-only")
    program.expect("a cluster without steps", ([], wanted), (end.refused, end.text))


def sessions(program):
    """A session is begun once in each epoch of a link, over a link that is up, with a device that is there."""
    end = program.ended([["begin", 2, 3], ["begin", 2, 1], ["connect", 1, 2], ["begin", 2, 1], ["begin", 2, 1],
                         ["lose", 1, 2], ["connect", 1, 2], ["begin", 2, 1], ["begin", 1, 2], ["deliver", 1, 2]])
    program.expect("sessions that are begun", ["1: 162 NotShared", "2: 151 LinkDown", "5: 163 NothingToDo"], end.refused)
    program.expect("the second connection", (True, 2, NOTHING, NOTHING), end.link())
    # Device 2 named the folder in it, with the id of its index, and nobody named it to device 2.
    program.expect("what device 1 was told", [(12, 0, [])], end.views(1))
    program.expect("what device 2 was told", [], end.views(2))


def early_announcements(program):
    """Nothing is announced of a folder that isn't shared, over a link that is down, or before the other one named the
    folder. An index without records is announced once."""
    steps = [["announce", 1, 2, "music"], *announce(), ["connect", 1, 2], ["begin", 1, 2], *announce(), ["begin", 2, 1],
             ["deliver", 1, 2], *announce(), *announce()]
    refused = ["1: 162 NotShared", "2: 151 LinkDown", "5: 161 NotBegun", "9: 163 NothingToDo"]
    end = program.ended(steps)
    program.expect("early announcements", refused, end.refused)
    program.expect("an empty index", (True, 1, NOTHING, messages((True,))), end.link())
    # A device that starts anew has lost its link, and begins another session.
    end = program.ended(steps + [["restart", 1], *announce(), ["connect", 1, 2], *announce(), ["begin", 1, 2],
                                 ["begin", 1, 2]])
    program.expect("a restart", [*refused, "11: 151 LinkDown", "13: 161 NotBegun", "15: 163 NothingToDo"], end.refused)


def indexes(program):
    """First goes the whole index, and then what came since, also over a new connection."""
    both = put("a", 1, text="x") + put("b", 1, text="x")
    end = program.ended(both + meet() + announce())
    program.expect("the whole index", (True, 1, NOTHING, messages((True, ("a", 1), ("b", 2)))), end.link())
    end = program.ended(both + meet() + tell() + put("a", 2, text="y") + announce())
    program.expect("what came since", (True, 1, NOTHING, messages((False, ("a", 3)))), end.link())
    program.expect("what is known", [(11, 2, [("a", 1), ("b", 2)])], end.views(2))
    one = put("a", 1, text="x") + meet() + tell() + put("b", 1, text="x")
    program.expect("what is known then", [(11, 2, [("a", 1), ("b", 2)])], program.ended(one + tell()).views(2))
    end = program.ended(one + [["lose", 1, 2]] + meet() + announce())
    program.expect("what came since, anew", (True, 2, NOTHING, messages((False, ("b", 2)))), end.link())


def blocks(program):
    """A block is asked for once while its answer is due, and not when it is there."""
    hello = put("hello", 1, text="hello") + meet() + tell()
    end = program.ended(hello + pull("hello") + ask("hello") + ask("hello") + [["deliver", 1, 2]] + ask("hello")
                        + [["deliver", 2, 1]] + ask("hello") + finish("hello") + finish("hello"))
    program.expect("a block that is asked for",
                   ["12: 163 NothingToDo", "14: 163 NothingToDo", "16: 163 NothingToDo", "18: 142 NotNeeded"], end.refused)
    program.expect("the file", [("hello", "68656c6c6f")], end.store(2))
    # An empty file has one block too, of no bytes.
    end = program.ended(put("a", 1, text="") + meet() + tell() + pull("a") + finish("a") + ask("a")
                        + [["deliver", 1, 2], ["deliver", 2, 1]] + finish("a"))
    program.expect("an empty file", ["11: 143 BlocksMissing"], end.refused)
    program.expect("an empty file that is pulled", "settled", program.first_line(["check"], end.text))


def answers(program):
    """The answer to a request after one more step of device 1. Where it has the block, it isn't asked for again; where it
    hasn't, it is, and the pull can't end yet."""
    begin = put("hello", 1, text="hello") + meet() + tell() + pull("hello") + ask("hello")
    rest = [["deliver", 1, 2], ["deliver", 2, 1], *ask("hello"), *finish("hello")]
    has, lacks = ["15: 163 NothingToDo"], ["16: 143 BlocksMissing"]
    for what, step, wanted in (
        ("the block", ["scan", 1, "docs", "hello"], has),
        ("a longer file", edit(1, "hello", 1, text="hello!"), has),
        ("no file", ["remove", 1, "docs", "hello"], lacks),
        ("a directory", ["edit", 1, "docs", {"name": "hello", "type": 1, "modified_s": 1}], lacks),
        ("a shorter file", edit(1, "hello", 1, text="hell"), lacks),
        ("other bytes", edit(1, "hello", 1, text="hallo"), lacks),
    ):
        program.expect(what, wanted, program.ended(begin + [step] + rest).refused)


def two_changes(program):
    """A file that two devices changed: the pulled one has the greater of each counter, and the other one stands beside it,
    as a new file to the next scan."""
    copy = "notes.sync-conflict-2000-0000000000000002.txt"
    end = program.ended(put("notes.txt", 1000, text="old") + meet() + tell() + take("notes.txt")
                        + put("notes.txt", 2000, text="hello")
                        + [edit(2, "notes.txt", 2000, text="abc"), ["scan", 2, "docs", "notes.txt"]]
                        + tell() + take("notes.txt") + [["scan", 2, "docs", copy]])
    program.expect("a file that two changed", [], end.refused)
    program.expect("its copy and itself", [record(2, 2000, 4, [[2, 1]]), record(1, 2000, 3, [[1, 2], [2, 1]])], end.own(2))
    program.expect("their bytes", [(copy, "616263"), ("notes.txt", "68656c6c6f")], end.store(2))


OTHER = edit(2, "hello", 999, text="7")


def changed(program, steps, kind="send-receive"):
    """The end where device 2 took over a file of time 1000 and made these steps."""
    return program.ended(put("hello", 1000, text="hello") + meet() + tell() + take("hello") + steps, kind)


def scans(program):
    """The device's counter goes up by 1, and a deletion keeps the record's time."""
    later, same = edit(2, "hello", 1001, text="hello"), edit(2, "hello", 1000, text="hallo")
    gone = ["remove", 2, "docs", "hello"]
    for what, steps, wanted in (
        ("a file that was taken over", [], record(1, 1000, 1, [[1, 1]])),
        ("a file that was changed", [OTHER, SCAN], record(2, 999, 2, [[1, 1], [2, 1]])),
        ("a file that is gone", [OTHER, SCAN, gone, SCAN], record(2, 999, 3, [[1, 1], [2, 2]], deleted=True)),
        ("another time", [later, SCAN], record(2, 1001, 2, [[1, 1], [2, 1]])),
    ):
        program.expect(what, [wanted], changed(program, steps).own(2))
    # What keeps size and time is no change to a scan, and the audit finds it.
    end = changed(program, [same, SCAN])
    program.expect("other bytes of that time", [record(1, 1000, 1, [[1, 1]])], end.own(2))
    program.expect("these bytes", "not settled: StoreDiffers docs hello on 2", program.first_line(["check"], end.text))


def local_changes(program):
    """Where a device only receives, a local change keeps the version and is marked; what takes it back is a deletion
    without counters."""
    revert = ["revert", 2, "docs", "hello"]
    end = changed(program, [OTHER, SCAN], "receive-only")
    program.expect("a local change", [record(2, 999, 2, [[1, 1]], invalid=True)], end.own(2))
    program.expect("its file", [("hello", "37")], end.store(2))
    end = changed(program, [OTHER, SCAN, revert], "receive-only")
    program.expect("what takes it back", [record(2, 999, 3, [], deleted=True)], end.own(2))
    program.expect("no file then", [], end.store(2))
    end = changed(program, [OTHER, SCAN, revert, *take("hello")], "receive-only")
    program.expect("the file again", [record(1, 1000, 4, [[1, 1]])], end.own(2))


def refused_after_restart(device, place):
    """The steps that are refused where this device starts anew after the first `place` steps by which a file is taken over,
    each under its number. What goes over the link is refused once the link is lost. Device 2 knows of the file from step 9
    on, and keeps what it knows; it pulls the file from step 10 on, and forgets that; with step 13 it has the file's block."""
    steps = {15: "142 NotNeeded"}
    if 3 <= place <= 13:
        steps |= {step: "151 LinkDown" for step in (4, 5, 6, 7, 8, 9, 11, 12, 13) if step > place}
        if place <= 8:
            steps |= {10: "142 NotNeeded", 14: "142 NotNeeded"}
        elif place >= 10 and device == 2:
            steps[14] = "142 NotNeeded"
        elif place <= 12:
            steps |= {14: "143 BlocksMissing", 15: "143 BlocksMissing"}
    return [f"{step + (step > place)}: {why}" for step, why in sorted(steps.items())]


def restarts(program):
    """A device that starts anew between any two steps by which a file is taken over: device 2 has no file or the whole one,
    and takes it over by the same steps then."""
    steps = put("hello", 1000, text="hello") + meet() + tell() + take("hello") + finish("hello")
    again = [["lose", 1, 2], *meet(), *announce(), ["deliver", 2, 1], *take("hello")]
    for device in (1, 2):
        for place in range(len(steps) + 1):
            what, made = f"device {device} anew after {place} steps", steps[:place] + [["restart", device]] + steps[place:]
            end, has_file = program.ended(made), place <= 2 or place >= 14 or (device, place) == (1, 13)
            program.expect(what, (refused_after_restart(device, place), [("hello", "68656c6c6f")] if has_file else []),
                           (end.refused, end.store(2)))
            end = program.ended(made + again)
            program.expect(f"{what}, and again", ([("hello", "68656c6c6f")], [record(1, 1000, 1, [[1, 1]])], "settled"),
                           (end.store(2), end.own(2), program.first_line(["check"], end.text)))


def refused_after_reset(device, place):
    """The same where this device's indexes begin anew there. Device 2, if it is the one, forgets besides what it knew of the
    file; device 1 has nothing to tell from step 2 on, and no file to send from then on is asked for."""
    if (device, place) == (1, 2):
        steps = {10: "142 NotNeeded", 11: "163 NothingToDo", 12: "163 NothingToDo", 13: "163 NothingToDo",
                 14: "142 NotNeeded", 15: "142 NotNeeded"}
        return [f"{step + 1}: {why}" for step, why in steps.items()]
    if device == 1 or not 9 <= place <= 13:
        return refused_after_restart(device, place)
    steps = {step: "151 LinkDown" for step in (11, 12, 13) if step > place} | {14: "142 NotNeeded", 15: "142 NotNeeded"}
    if place == 9:
        steps[10] = "142 NotNeeded"
    return [f"{step + 1}: {why}" for step, why in sorted(steps.items())]


def resets(program):
    """A device that loses its database between any two of these steps: device 2 has no file or the whole one. Once both have
    scanned what they have, the same steps bring the file, or its version where device 2 has a record of its own."""
    steps = put("hello", 1000, text="hello") + meet() + tell() + take("hello") + finish("hello")
    scans_of_both = [["scan", device, "docs", "hello"] for device in (1, 2)]
    again = [*scans_of_both, ["lose", 1, 2], *meet(), *announce(), ["deliver", 2, 1], *take("hello")]
    for device in (1, 2):
        for place in range(len(steps) + 1):
            what = f"indexes of device {device} anew after {place} steps"
            made = steps[:place] + [["reset", device, 20 + device]] + steps[place:]
            end = program.ended(made + scans_of_both, version=2)
            has_file = place <= 1 or place >= 14 or (device, place) in ((2, 2), (1, 13))
            program.expect(what, (refused_after_reset(device, place), [("hello", "68656c6c6f")] if has_file else []),
                           (end.refused, end.store(2)))
            end = program.ended(made + again, version=2)
            has_own = device == 2 and place >= 14
            taken = record(1, 1000, 2, [[1, 1], [2, 1]]) if has_own else record(1, 1000, 1, [[1, 1]])
            program.expect(f"{what}, and again", ([("hello", "68656c6c6f")], [taken], "settled"),
                           (end.store(2), end.own(2), program.first_line(["check"], end.text)))


def index_ids(program):
    """Indexes begin anew under an id above the present one alone, and all that the device knew goes, but its files."""
    begin = put("hello", 1000, text="hello") + meet() + tell() + take("hello")
    for index_id in (1, 11, 12, 2**64 - 1):
        end = program.ended(begin + [["reset", 1, index_id]], version=2)
        program.expect(f"indexes anew under {index_id}", [] if index_id > 11 else ["15: 149 IndexIdOld"], end.refused)
        held = (index_id, 0, [], (False, 1, [], [])) if index_id > 11 else (11, 1, [("hello", 1)], (True, 1, [], []))
        index = end.share(1)["index_id"], end.share(1)["max"], end.names(1)
        program.expect("what it has then", held, (*index, end.link()))
        program.expect("its files", [("hello", "68656c6c6f")], end.store(1))
    end = program.ended(begin + [["reset", 2, 13], ["reset", 2, 13], ["reset", 3, 13]], version=2)
    program.expect("what device 2 knew", (["16: 149 IndexIdOld", "17: 162 NotShared"], []), (end.refused, end.views(2)))


ROWS = (begun, sessions, early_announcements, indexes, blocks, answers, two_changes, scans, local_changes, restarts,
        resets, index_ids)
