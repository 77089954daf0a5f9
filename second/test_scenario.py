#!/usr/bin/env python3
"""What is written for scenario documents, and why some are refused.

    second/test_scenario.py
"""

import json
import unittest

import scenario

DOCS = "docs"


class Scenarios(unittest.TestCase):
    """What is written for a scenario document."""

    EDIT = ["edit", 1, DOCS, {"name": "hello", "type": 0, "modified_s": 1000, "text": "hello"}]
    STEPS = [EDIT, ["scan", 1, DOCS, "hello"], ["connect", 1, 2], ["begin", 1, 2], ["begin", 2, 1], ["deliver", 2, 1],
             ["deliver", 1, 2], ["announce", 1, 2, DOCS], ["deliver", 2, 1], ["pull", 2, DOCS, "hello"],
             ["ask", 2, 1, DOCS, "hello"], ["deliver", 1, 2], ["deliver", 2, 1], ["finish", 2, DOCS, "hello"],
             ["finish", 2, DOCS, "hello"]]
    COUNTS = "folder docs: 1 names, 0 deleted, 2 devices"
    ROW = "docs hello 1 0 present 1:1"

    def document(self, steps) -> dict:
        """Two devices that share a folder, and these steps."""
        devices = [{"device": device, "kind": "send-receive", "index_id": 10 + device} for device in (1, 2)]
        folder = {"folder": DOCS, "devices": devices}
        return {"version": 1, "folders": [folder], "links": [[1, 2]], "steps": list(steps)}

    def writes(self, document, status: int, *lines: str) -> None:
        """These lines and this exit status are what the program should give."""
        data = document if isinstance(document, bytes) else json.dumps(document).encode()
        self.assertEqual(scenario.answer(data), ("".join(line + "\n" for line in lines).encode(), status))

    def test_beginnings_of_the_scenario(self):
        missing = "not settled: RecordMissing docs hello on 2"
        self.writes(self.document(self.STEPS[:1]), 1, "not settled: NotWinner docs hello", self.COUNTS)
        self.writes(self.document(self.STEPS[:2]), 1, missing, self.COUNTS, self.ROW)
        self.writes(self.document(self.STEPS), 0, "step 15: 142 NotNeeded", "settled", self.COUNTS, self.ROW)
        self.writes(self.document([["connect", 1, 3]]), 0, "step 1: 162 NotShared", "settled",
                    "folder docs: 0 names, 0 deleted, 2 devices")
        self.writes(self.document([]), 0, "settled", "folder docs: 0 names, 0 deleted, 2 devices")

    def test_rows_of_version_2_have_block_sizes(self):
        document = self.document(self.STEPS) | {"version": 2}
        self.writes(document, 0, "step 15: 142 NotNeeded", "settled", self.COUNTS, self.ROW + " 131072")
        document["steps"] += [["remove", 2, DOCS, "hello"], ["scan", 2, DOCS, "hello"]]
        self.writes(document, 1, "step 15: 142 NotNeeded", "not settled: RecordDiffers docs hello on 1",
                    self.COUNTS, "docs hello 2 0 deleted 1:1,2:1 0")

    def test_names_versions_and_deletions_in_rows(self):
        edit = ["edit", 1, DOCS, {"name": "a b\\", "type": 1, "modified_s": 1000}]
        self.writes(self.document([edit, ["scan", 1, DOCS, "a b\\"], ["remove", 1, DOCS, "a b\\"],
                                   ["scan", 1, DOCS, "a b\\"]]), 0,
                    "settled", "folder docs: 1 names, 1 deleted, 2 devices", "docs a\\x20b\\x5c 1 1 deleted 1:2")
        document = self.document([edit, ["scan", 1, DOCS, "a b\\"]])
        document["folders"][0]["devices"][0]["kind"] = "receive-only"
        self.writes(document, 1, "not settled: NotWinner docs a\\x20b\\x5c", self.COUNTS)
        document["steps"].append(["revert", 1, DOCS, "a b\\"])
        self.writes(document, 0, "settled", "folder docs: 1 names, 1 deleted, 2 devices",
                    "docs a\\x20b\\x5c 1 1 deleted -")

    def test_a_restart_at_each_place(self):
        down, begun, done = (lambda place: f"step {place}: 151 LinkDown", lambda place: f"step {place}: 161 NotBegun",
                             lambda place: f"step {place}: 142 NotNeeded")
        for after in range(16):
            steps = self.STEPS[:after] + [["restart", 2]] + self.STEPS[after:]
            written, status = scenario.answer(json.dumps(self.document(steps)).encode())
            lines = written.decode().splitlines()
            has_file = status == 0
            self.assertEqual(lines[-3], "settled" if has_file else "not settled: RecordMissing docs hello on 2", after)
            self.assertEqual(has_file, after in (0, 1, 2, 14, 15), after)
            if after == 10:
                self.assertEqual(lines[:-3], [down(12), down(13), down(14), done(15), done(16)])
            if after == 14:
                self.assertEqual(lines[:-3], [done(16)])

    def test_resets_in_version_2(self):
        document, row = self.document(self.STEPS) | {"version": 2}, "docs hello %d 0 present 1:1 131072"
        for steps, told, winner in (
            ([["reset", 1, 21]], ["not settled: RecordMissing docs hello on 1"], 2),
            ([["reset", 1, 21], ["scan", 1, DOCS, "hello"]], ["settled"], 1),
            ([["reset", 2, 22], ["scan", 2, DOCS, "hello"]], ["settled"], 1),
            ([["reset", 1, 11]], ["step 16: 149 IndexIdOld", "settled"], 1),
        ):
            with self.subTest(steps=steps):
                self.writes(document | {"steps": self.STEPS + steps}, int(told[-1] != "settled"),
                            "step 15: 142 NotNeeded", *told, self.COUNTS, row % winner)

    def test_refused_documents(self):
        good = self.document(self.STEPS)
        device = good["folders"][0]["devices"][0]
        folder = good["folders"][0]
        node = self.EDIT[3]

        def edited(**members):
            return good | {"steps": [["edit", 1, DOCS, node | members]]}

        def shared(**members):
            return good | {"folders": [folder | {"devices": [device | members]}], "links": []}
        cases = {
            "181 NotJson": [b"", b"{", json.dumps(good).encode()[:-1]],
            "182 VersionBad": [[], {}, good | {"version": 3}, good | {"version": 0}, good | {"version": "1"}, good | {"version": 1.0},
                               good | {"version": True}],
            "183 Shape": [{"version": 1}, good | {"cut": {}}, good | {"steps": [[]]}, good | {"steps": [["jump", 1]]},
                          good | {"steps": [["connect", 1]]}, good | {"steps": [["connect", 1, 2, 3]]},
                          good | {"steps": [["connect", 1, "2"]]}, good | {"steps": [["edit", 1, DOCS, "hello"]]},
                          good | {"steps": [["connect", 1, 2.5]]}, good | {"links": [[1, 2, 3]]},
                          good | {"steps": [["reset", 1, 21]]}, good | {"version": 2, "steps": [["reset", 1]]},
                          good | {"version": 2, "steps": [["reset", 1, "21"]]},
                          edited(hex=""), edited(text=5), edited(type=4), edited(size=5), shared(max=0)],
            "184 Range": [good | {"links": [[0, 1]]}, good | {"steps": [["restart", 0]]},
                          good | {"steps": [["restart", 2**64 - 1], ["scan", 1, "no folder", "n"]]},
                          good | {"version": 2, "steps": [["reset", 0, 21]]},
                          good | {"version": 2, "steps": [["reset", 1, 0]]},
                          good | {"version": 2, "steps": [["reset", 1, 2**64 - 1], ["restart", 0]]},
                          good | {"steps": [["scan", 1, DOCS, "a/../b"]]}, good | {"steps": [["connect", -1, 2]]},
                          edited(modified_ns=10**9), edited(name=""), edited(type=2), shared(index_id=0),
                          shared(kind="receive-encrypted"), shared(device=0),
                          good | {"folders": [folder | {"folder": f"f{place}"} for place in range(17)]},
                          good | {"folders": [folder | {"devices": [device | {"device": number}
                                                                    for number in range(1, 18)]}]}],
            "185 Twice docs - -": [good | {"folders": [folder, folder]}],
            "185 Twice docs 1 -": [good | {"folders": [folder | {"devices": [device, device]}]},
                                   good | {"folders": [folder | {"devices": [device] * 17}]}],
            "185 Twice - 1 -": [good | {"links": [[1, 2], [1, 2]]}],
            "187 RecordBad docs 1 hello": [edited(type=1), edited(target="x"),
                                           {**edited(type=4, target=""), "links": [[2, 1]]}],
            "189 LinkBad - 2 -": [good | {"links": [[1, 2], [2, 1]]}, good | {"links": [[2, 2]]}],
            "189 LinkBad - 1 -": [good | {"links": [[1, 3]]}],
        }
        for refusal, documents in cases.items():
            for document in documents:
                with self.subTest(refusal=refusal, document=document):
                    self.writes(document, 2, "refused: " + refusal)


if __name__ == "__main__":
    unittest.main()
