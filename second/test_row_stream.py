#!/usr/bin/env python3
"""Worked examples of streams of rows: what is answered to each, and why a line is refused.

    second/test_row_stream.py
"""

import json
import unittest

import under_winners
from row_stream import answer
from row_texts import Streams, document_of, header_of, rows_of
from test_reading import DOC1

HEADER = {"version": 1, "cut": {"folders": [{"folder": "docs", "devices": [
    {"device": 1, "kind": "send-receive", "index_id": 11, "max": 3, "views": [{"of": 2, "index_id": 12, "max": 2, "records": []}]},
    {"device": 2, "kind": "send-receive", "index_id": 12, "max": 3}]}]}}


def record(name, **others):
    """A record of a directory."""
    return {"name": name, "type": 1, "modified_s": 9, "modified_by": 1, "version": [[1, 1]], "sequence": 1} | others


def row(name, cells, *, folder="docs", records=None, nodes=None):
    """A row of a directory, with its record and its node if not given otherwise."""
    node = {"name": name, "type": 1, "modified_s": 9}
    return [folder, name, [record(name)] if records is None else records, [node] if nodes is None else nodes, cells]


BOTH = [[1, 1, 1, 0, []], [2, 1, 1, 0, []]]


def told(*lines, aim="settled", explain=False):
    """What is written to these lines, and the status."""
    written, status = answer(b"".join(json.dumps(line).encode() + b"\n" for line in lines), aim, explain)
    return written.decode().splitlines(), status


def told_firm(*lines):
    return told(*lines, aim="firm")


class Answers(unittest.TestCase):
    """Streams that are read to their end."""

    def test_settled(self):
        self.assertEqual(told(HEADER, row("a", BOTH), row("b", BOTH)), (["settled", "folder docs: 2 names, 0 deleted, 2 devices"], 0))

    def test_no_row(self):
        self.assertEqual(told(HEADER), (["settled", "folder docs: 0 names, 0 deleted, 2 devices"], 0))

    def test_no_folder(self):
        self.assertEqual(told({"version": 2, "cut": {"folders": []}}), (["settled"], 0))

    def test_each_name_at_fault_has_a_line_and_the_least_reason_is_the_verdict(self):
        later = row("b", [[1, 1, 1, 0, []]])
        unclean = row("a", [[1, 1, 1, 0, []], [2, 1, 0, 0, []]])
        self.assertEqual(told(HEADER, unclean, later), (
            ["StoreDiffers docs a on 2", "RecordMissing docs b on 2", "not settled: RecordMissing docs b on 2",
             "folder docs: 2 names, 0 deleted, 2 devices"], 1))

    def test_a_name_without_a_winner_comes_first(self):
        unwon = row("b", [[1, 0, 1, 0, []]], records=[])
        missing = row("a", [[1, 1, 1, 0, []]])
        self.assertEqual(told(HEADER, missing, unwon), (
            ["RecordMissing docs a on 2", "NotWinner docs b", "not settled: NotWinner docs b",
             "folder docs: 2 names, 0 deleted, 2 devices"], 1))

    def test_what_no_store_holds_is_deleted(self):
        gone = row("a", [[1, 1, 0, 0, []], [2, 1, 0, 0, []]], records=[record("a", deleted=True)], nodes=[])
        self.assertEqual(told(HEADER, gone), (["settled", "folder docs: 1 names, 1 deleted, 2 devices"], 0))

    def test_a_view_may_be_ahead(self):
        ahead = record("a", version=[[1, 1], [2, 1]], deleted=True, sequence=2)
        cells = [[1, 1, 1, 0, [[2, 2]]], [2, 1, 1, 0, []]]
        self.assertEqual(told(HEADER, row("a", cells, records=[record("a"), ahead]))[0][0], "ViewAhead docs a on 1")

    def test_folders_rise_before_names(self):
        folders = [{**HEADER["cut"]["folders"][0], "folder": folder} for folder in ("docs", "a-b")]
        rows = row("z", BOTH, folder="a-b"), row("a", BOTH)
        self.assertEqual(told({"version": 1, "cut": {"folders": folders}}, *rows), (
            ["settled", "folder a-b: 1 names, 0 deleted, 2 devices", "folder docs: 1 names, 0 deleted, 2 devices"], 0))

    def test_the_last_line_may_have_no_end(self):
        lines = json.dumps(HEADER).encode() + b"\n" + json.dumps(row("a", BOTH)).encode()
        self.assertEqual(answer(lines), answer(lines + b"\n"))

    def test_the_worked_document(self):
        document = json.loads(DOC1)
        lines = [header_of(document), *rows_of(document)]
        self.assertEqual(told(*lines), (["settled", "folder docs: 1 names, 0 deleted, 2 devices"], 0))


class Firm(unittest.TestCase):
    """The same where firm is asked for: both devices have the directory `c`, by versions of which neither is above the other."""

    VERSIONS = [record("c", modified_s=8), record("c", modified_by=2, version=[[2, 1]])]
    LOOSE = row("c", [[1, 1, 1, 0, []], [2, 2, 1, 0, []]], records=VERSIONS)

    def test_firm(self):
        self.assertEqual(told_firm(HEADER, row("a", BOTH)), (["firm", "folder docs: 1 names, 0 deleted, 2 devices"], 0))

    def test_a_name_that_is_settled_and_not_firm_has_a_line(self):
        rows = row("a", BOTH), self.LOOSE
        self.assertEqual(told(HEADER, *rows), (["settled", "folder docs: 2 names, 0 deleted, 2 devices"], 0))
        self.assertEqual(told_firm(HEADER, *rows), (
            ["VersionDiffers docs c on 1", "not firm: VersionDiffers docs c on 1", "folder docs: 2 names, 0 deleted, 2 devices"], 1))

    def test_what_is_not_settled_comes_before_what_is_not_firm(self):
        missing = row("d", [[1, 1, 1, 0, []]])
        self.assertEqual(told_firm(HEADER, self.LOOSE, missing), (
            ["VersionDiffers docs c on 1", "RecordMissing docs d on 2", "not firm: RecordMissing docs d on 2",
             "folder docs: 2 names, 0 deleted, 2 devices"], 1))

    def test_refused_at_a_later_line(self):
        self.assertEqual(told_firm(HEADER, self.LOOSE, row("a", BOTH)), (["VersionDiffers docs c on 1", "line 3: refused: 185 Twice docs - a"], 2))


class Explained(unittest.TestCase):
    """All that fails at each name, but for details."""

    def test_all_that_fails_at_a_name_is_told_and_the_verdict_stays(self):
        unclean = row("a", [[1, 1, 0, 0, []], [2, 1, 1, 0, []]])
        without = row("b", [[1, 0, 1, 0, []]])
        end = ["not settled: NotWinner docs b", "folder docs: 3 names, 0 deleted, 2 devices"]
        rows = HEADER, unclean, without, row("c", BOTH)
        self.assertEqual(told(*rows), (["StoreDiffers docs a on 1", "NotWinner docs b", *end], 1))
        self.assertEqual(told(*rows, explain=True), (
            ["StoreDiffers docs a on 1", "StoreUnclean docs a on 1", "NotWinner docs b", *end], 1))

    def test_what_is_not_firm_comes_behind_what_is_not_settled(self):
        both = row("c", [[1, 1, 1, 0, []], [2, 2, 0, 0, []]], records=Firm.VERSIONS)
        self.assertEqual(told(HEADER, both, aim="firm", explain=True)[0][:-2],
                         ["StoreDiffers docs c on 2", "StoreUnclean docs c on 2", "VersionDiffers docs c on 1"])


class Converging(unittest.TestCase):
    """Whether the cut converges: a view of device 2 at 1 has what 2 has, if it says so."""

    def test_a_name_that_is_still_to_come_converges(self):
        ahead = row("a", [[1, 1, 1, 0, [[2, 2]]], [2, 2, 1, 0, []]], records=[record("a"), record("a", version=[[1, 1], [2, 1]], sequence=2)])
        self.assertEqual(told(HEADER, ahead, row("b", BOTH), aim="converging"), (
            ["converging", "folder docs: 2 names, 0 deleted, 2 devices, 1 pairs not yet at the winner"], 0))

    def test_each_name_has_its_first_hindrance_and_the_least_reason_is_the_verdict(self):
        rows = HEADER, row("b", [[1, 1, 0, 0, []]]), Firm.LOOSE
        end = ["not converging: NothingPrevails docs c",
               "folder docs: 2 names, 1 deleted, 2 devices, 3 pairs not yet at the winner"]
        self.assertEqual(told(*rows, aim="converging"), (["StoreUnclean docs b on 1", "NothingPrevails docs c", *end], 1))
        self.assertEqual(told(*rows, aim="converging", explain=True), (
            ["StoreUnclean docs b on 1", "StoreDiffers docs b on 1", "NothingPrevails docs c", "Concurrent docs c", *end], 1))


class Refusals(unittest.TestCase):
    """The number of each line that is refused, and its fault."""

    def refused(self, line, *lines):
        self.assertEqual(told(*lines), ([line], 2))

    def refused_row(self, fault, cells, **others):
        self.refused(f"line 2: refused: {fault}", HEADER, row("b", cells, **others))

    def test_not_json(self):
        self.assertEqual(answer(b""), (b"line 1: refused: 181 NotJson\n", 2))
        self.assertEqual(answer(json.dumps(HEADER).encode() + b"\n\n"), (b"line 2: refused: 181 NotJson\n", 2))

    def test_version(self):
        self.refused("line 1: refused: 182 VersionBad", {**HEADER, "version": 3})

    def test_header_with_names(self):
        document = json.loads(DOC1)
        self.refused("line 1: refused: 183 Shape", document)
        link = {"a": 1, "b": 2, "up": True, "epoch": 0, "to_a": [{"folder": "docs", "full": True, "records": []}]}
        self.refused("line 1: refused: 183 Shape", {"version": 1, "cut": {**HEADER["cut"], "links": [link]}})

    def test_header_is_refused_as_a_cut_before_its_names_are_looked_at(self):
        document = json.loads(DOC1)
        document["cut"]["folders"].append(document["cut"]["folders"][0])
        self.refused("line 1: refused: 185 Twice docs - -", document)

    def test_shape(self):
        self.refused("line 2: refused: 183 Shape", HEADER, row("b", BOTH)[:4])
        self.refused_row("183 Shape", [[1, 1, 0, 0]])

    def test_range(self):
        for cells in ([[1, 2, 0, 0, []]], [[1, 1, 2, 0, []]], [[1, 0, 0, 2, []]], [[1, 1, 0, 0, [[2, 0]]]], [[1, 1, 0, 0, [[2, 2]]]],
                      [[0, 1, 0, 0, []]], [], [[1, 0, 0, 0, []]]):
            with self.subTest(cells):
                self.refused_row("184 Range", cells)

    def test_too_many(self):
        for many, fault in ((16, "186 Unshared docs"), (17, "184 Range")):
            self.assertIn(fault, told(HEADER, row("b", [[1, 1, 0, 0, [[of, 1] for of in range(2, 2 + many)]]]))[0][0])
            self.assertIn(fault, told(HEADER, row("b", [[device, 1, 0, 0, []] for device in range(1, 1 + many)]))[0][0])

    def test_too_long(self):
        line = json.dumps(row("a", BOTH)).encode()
        for spare, number in ((0, 0), (1, 184)):
            written, _ = answer(json.dumps(HEADER).encode() + b"\n" + line + b" " * (1048576 - len(line) + spare))
            self.assertEqual(b"refused: 184 Range" in written, bool(number))
        header = json.dumps(HEADER).encode()
        self.assertEqual(answer(header + b" " * (1048577 - len(header))), (b"line 1: refused: 184 Range\n", 2))

    def test_order(self):
        self.assertEqual(told(HEADER, row("b", [[1, 1, 1, 0, []]]), row("a", BOTH)), (
            ["RecordMissing docs b on 2", "line 3: refused: 185 Twice docs - a"], 2))
        self.refused("line 3: refused: 185 Twice docs - b", HEADER, row("b", BOTH), row("b", BOTH))

    def test_twice(self):
        self.refused_row("185 Twice docs 1 b", [*BOTH, BOTH[0]])
        self.refused_row("185 Twice docs 1 b", [[1, 1, 0, 0, [[2, 1], [2, 1]]]])

    def test_unshared(self):
        self.refused_row("186 Unshared docs 3 b", [*BOTH, [3, 1, 0, 0, []]])
        self.refused_row("186 Unshared docs 2 b", [[2, 1, 0, 0, [[1, 1]]]])
        self.refused_row("186 Unshared other 1 b", BOTH, folder="other")

    def test_bad_record(self):
        self.refused_row("187 RecordBad docs - b", BOTH, records=[record("a")])
        self.refused_row("187 RecordBad docs - b", BOTH, records=[record("b", target="x")])
        self.refused_row("187 RecordBad docs - b", BOTH, nodes=[{"name": "a", "type": 1, "modified_s": 9}])
        self.refused_row("187 RecordBad docs 1 b", [[1, 0, 0, 1, []]], records=[record("b", invalid=True)])

    def test_bad_sequence(self):
        self.refused_row("188 SequenceBad docs 1 b", BOTH, records=[record("b", sequence=4)])
        self.refused_row("188 SequenceBad docs 1 b", [[1, 0, 0, 0, [[2, 1]]]], records=[record("b", sequence=3)])
        self.refused_row("188 SequenceBad docs 2 b", [[2, 1, 1, 0, []]], records=[record("b", sequence=0)])

    def test_two_names_of_one_sequence_are_read(self):
        self.assertEqual(told(HEADER, row("a", BOTH), row("b", BOTH))[1], 0)


class Documents(unittest.TestCase):
    """The verdict is that of `check --certify` of the document for which a stream stands."""

    def test_random(self):
        streams, compared = Streams(7), 0
        for _ in range(200):
            stream = streams.bytes()
            written, status = answer(stream)
            if status == 2:
                continue
            checked, as_document = under_winners.answers(document_of(stream))["check"]
            if as_document != 2:
                compared += 1
                verdict = [line for line in written.splitlines() if line.startswith((b"settled", b"not settled: "))]
                self.assertEqual((verdict, status), (checked.splitlines()[:1], as_document))
        self.assertGreater(compared, 80)



if __name__ == "__main__":
    unittest.main()
