#!/usr/bin/env python3
"""Worked examples of check documents: what is answered to each, and why some are refused.

    second/test_reading.py
"""

import copy
import json
import unittest

import reading
import reports
from cluster.cut import NoWinner, certify

HELLO = "2cf24dba5fb0a30e26e83b2ac5b9e29e1b161e5c1fa7425e73043362938b9824"
ABC = "ba7816bf8f01cfea414140de5dae2223b00361a396177a9cb410ff61f20015ad"

# One file, equal on two devices.
DOC1 = """{"version":1,"cut":{"folders":[{"folder":"docs","devices":[
{"device":1,"kind":"send-receive","index_id":11,"max":1,
"own":[{"name":"hello","type":0,"size":5,"modified_s":1000,"modified_by":1,"version":[[1,1]],"sequence":1,
"blocks":["2cf24dba5fb0a30e26e83b2ac5b9e29e1b161e5c1fa7425e73043362938b9824"]}],
"store":[{"name":"hello","type":0,"modified_s":1000,"text":"hello"}]},
{"device":2,"kind":"send-receive","index_id":12,"max":1,
"own":[{"name":"hello","type":0,"size":5,"modified_s":1000,"modified_by":1,"version":[[1,1]],"sequence":1,
"blocks":["2cf24dba5fb0a30e26e83b2ac5b9e29e1b161e5c1fa7425e73043362938b9824"]}],
"store":[{"name":"hello","type":0,"modified_s":1000,"hex":"68656c6c6f"}]}]}]},
"certificate":[{"folder":"docs","device":1,
"record":{"name":"hello","type":0,"size":5,"modified_s":1000,"modified_by":1,"version":[[1,1]],"sequence":1,
"blocks":["2cf24dba5fb0a30e26e83b2ac5b9e29e1b161e5c1fa7425e73043362938b9824"]}}]}""".replace("\n", "")
COUNTS = "folder docs: 1 names, 0 deleted, 2 devices"


def file(name, version, **others):
    """A record of `hello`."""
    return {"name": name, "type": 0, "size": 5, "modified_s": 1000, "modified_by": 1, "version": version, "sequence": 1,
            "blocks": [HELLO]} | others


def other_file(name, version, **others):
    """A record of `abc`."""
    return file(name, version, size=3, blocks=[ABC]) | others


def directory(name, sequence):
    """A record of a directory."""
    return {"name": name, "type": 1, "modified_s": 1000, "modified_by": 1, "version": [[1, 1]], "sequence": sequence}


def view(of, *records, greatest=1):
    """A view of another device."""
    return {"of": of, "index_id": 10 + of, "max": greatest, "records": list(records)}


def message(*records, folder="docs"):
    """An Index on its way."""
    return {"folder": folder, "full": True, "records": list(records)}


def link(a, b, **others):
    """A link that is up."""
    return {"a": a, "b": b, "up": True, "epoch": 1} | others


def shares(*lists):
    """Devices 1, 2 and so on that send and receive, with these lists."""
    return [{"device": device, "kind": "send-receive", "index_id": 10 + device, "max": 2} | lists_of
            for device, lists_of in enumerate(lists, start=1)]


def document(devices, rows, **others):
    """A document of one folder."""
    return {"version": 1, "cut": {"folders": [{"folder": "docs", "devices": devices}]} | others,
            "certificate": [{"folder": folder, "device": device, "record": record} for folder, device, record in rows]}


class Answers(unittest.TestCase):
    """What is answered to a document."""

    def setUp(self):
        self.doc1 = json.loads(DOC1)
        self.first, self.second = self.doc1["cut"]["folders"][0]["devices"]

    def answers(self, asked, status, *lines):
        """These lines and this exit status are what the program should give."""
        data = asked if isinstance(asked, bytes) else json.dumps(asked).encode()
        self.assertEqual(reports.answer(data), ("".join(line + "\n" for line in lines).encode(), status))

    def refuses(self, asked, fault):
        """The document is refused so."""
        self.answers(asked, 2, "refused: " + fault)

    def certified(self, asked):
        """What is answered to the document with the list of its own winners."""
        read = reading.read_check(json.dumps(asked).encode())
        lines, status = reports.report(read | {"rows": certify(read)})
        return [line.decode() for line in lines], status

    def all_versions(self, version):
        """Gives this version to both records of `hello`, and to the row."""
        for record in (self.first["own"][0], self.second["own"][0], self.doc1["certificate"][0]["record"]):
            record["version"] = version

    # ---- settled, and not

    def test_one_file_on_two_devices(self):
        self.answers(DOC1.encode(), 0, "settled", COUNTS)

    def test_no_names(self):
        self.answers(document(shares({}, {}, {}), []), 0, "settled", "folder docs: 0 names, 0 deleted, 3 devices")

    def test_other_bytes(self):
        del self.second["store"][0]["hex"]
        self.second["store"][0]["text"] = "hallo"
        self.answers(self.doc1, 1, "not settled: StoreDiffers docs hello on 2", COUNTS)

    def test_another_time(self):
        self.second["store"][0]["modified_s"] = 1001
        self.answers(self.doc1, 1, "not settled: StoreUnclean docs hello on 2", COUNTS)

    def test_a_deletion_in_each_view_but_one(self):
        gone = {"name": "a.txt", "type": 0, "modified_s": 1000, "modified_by": 1, "version": [[1, 2]], "sequence": 2,
                "deleted": True}
        old = file("a.txt", [[1, 1]])
        counts = "folder docs: 1 names, 1 deleted, 3 devices"

        def seen(of_2, **others):
            devices = shares({"own": [gone]}, {"own": [gone]}, {"views": [view(1, gone, greatest=2), of_2]})
            return document(devices, [("docs", 1, gone)], **others)
        self.answers(seen(view(2, old, greatest=2)), 1, "not settled: ViewAhead docs a.txt on 3", counts)
        self.answers(seen(view(2, gone, greatest=2)), 0, "settled", counts)
        old_to_3 = {"links": [link(2, 3, to_b=[message(old)])]}
        self.answers(seen(view(2, greatest=2), **old_to_3), 1, "not settled: FlightAhead docs a.txt on 3", counts)

    def test_an_old_file_on_its_way(self):
        self.all_versions([[1, 2]])
        update = message(other_file("hello", [[1, 1]])) | {"full": False}
        self.doc1["cut"]["links"] = [link(1, 2, to_b=[update])]
        self.answers(self.doc1, 0, "settled", COUNTS)

    def test_an_old_file_that_is_pulled(self):
        self.all_versions([[1, 2]])
        self.second["pulls"] = [other_file("hello", [[1, 1]])]
        self.answers(self.doc1, 0, "settled", COUNTS)

    def test_a_change_that_a_send_only_folder_does_not_take(self):
        changed = other_file("hello", [[1, 1], [2, 1]], modified_by=2)
        self.first |= {"kind": "send-only", "views": [view(2, changed)]}
        self.second |= {"own": [changed], "views": [view(1, self.first["own"][0])],
                        "store": [{"name": "hello", "type": 0, "modified_s": 1000, "text": "abc"}]}
        self.assertEqual(self.certified(self.doc1), (["not settled: RecordDiffers docs hello on 1", COUNTS], 1))
        overridden = file("hello", [[1, 2], [2, 1]], sequence=2)
        self.first |= {"own": [overridden], "max": 2}
        self.second |= {"own": [overridden], "max": 2, "views": [view(1, overridden, greatest=2)],
                        "store": [{"name": "hello", "type": 0, "modified_s": 1000, "text": "hello"}]}
        self.assertEqual(self.certified(self.doc1), (["settled", COUNTS], 0))

    def test_a_local_change_of_a_receive_only_folder(self):
        changed = other_file("hello", [[1, 1]], modified_by=2, invalid=True)
        self.second |= {"kind": "receive-only", "own": [changed], "views": [view(1, self.first["own"][0])],
                        "store": [{"name": "hello", "type": 0, "modified_s": 1000, "text": "abc"}]}
        self.assertEqual(self.certified(self.doc1), (["not settled: LocalOnly docs hello on 2", COUNTS], 1))

    def test_no_winner(self):
        for device in (self.first, self.second):
            device["own"][0]["invalid"] = True
        with self.assertRaises(NoWinner) as raised:
            self.certified(self.doc1)
        self.assertEqual((raised.exception.folder, raised.exception.name), (b"docs", b"hello"))

    def test_rows(self):
        records = {name: directory(name, sequence) for sequence, name in enumerate("abc", start=1)}
        lists = {"own": [records["a"], records["b"]],
                 "store": [{"name": name, "type": 1, "modified_s": 1000} for name in "ab"]}

        def rows(names):
            return document(shares(lists, lists), [("docs", 1, records[name]) for name in names])
        counts = "folder docs: 2 names, 0 deleted, 2 devices"
        self.answers(rows("ab"), 0, "settled", counts)
        self.answers(rows("ba"), 1, "not settled: CertificateOrder docs a", counts)
        self.answers(rows("a"), 1, "not settled: NameMissing docs b", counts)
        self.answers(rows("aab"), 1, "not settled: CertificateOrder docs a", counts)
        self.answers(rows("abc"), 1, "not settled: NameUnknown docs c", counts)

    def test_a_local_change_and_another_file_on_their_way(self):
        record = {"name": "hello", "type": 0, "size": 3, "modified_s": 900, "modified_by": 1, "version": [[1, 1]],
                  "sequence": 1, "invalid": True, "blocks": [ABC]}
        self.doc1["cut"]["links"] = [link(1, 2, to_b=[message(record)])]
        self.answers(self.doc1, 0, "settled", COUNTS)
        record["invalid"] = False
        self.answers(self.doc1, 1, "not settled: FlightAhead docs hello on 2", COUNTS)

    def test_the_lesser_reason_at_the_later_name(self):
        records = [directory("a", 1) | {"type": 0, "size": 5, "blocks": [HELLO]}, directory("b", 2)]
        nodes = [{"name": "a", "type": 0, "modified_s": 1000, "text": "hello"},
                 {"name": "b", "type": 1, "modified_s": 1000}]
        asked = document(shares({"own": records, "store": [nodes[0] | {"modified_s": 1001}, nodes[1]]},
                                {"own": records[:1], "store": nodes}),
                         [("docs", 1, record) for record in records])
        self.answers(asked, 1, "not settled: RecordMissing docs b on 2", "folder docs: 2 names, 0 deleted, 2 devices")

    def test_rows_of_another_device_or_folder(self):
        row = self.doc1["certificate"][0]
        row["device"] = 2
        self.answers(self.doc1, 1, "not settled: NotWinner docs hello", COUNTS)
        row["device"] = 1
        self.doc1["certificate"].append(row | {"folder": "x"})
        self.answers(self.doc1, 1, "not settled: NameUnknown x hello", COUNTS)

    def test_nothing_at_all(self):
        self.answers({"version": 1, "cut": {"folders": []}, "certificate": []}, 0, "settled")

    # ---- refused

    def test_what_is_cut_off(self):
        self.refuses(b"", "181 NotJson")
        self.refuses(DOC1[:-1].encode(), "181 NotJson")

    def test_a_message_on_a_link_that_is_down(self):
        self.doc1["cut"]["links"] = [link(1, 2, up=False, to_b=[message()])]
        self.refuses(self.doc1, "189 LinkBad - 1 -")

    def test_a_name_twice(self):
        self.first["own"] *= 2
        self.refuses(self.doc1, "185 Twice docs 1 hello")

    def test_a_sequence_above_the_greatest(self):
        self.first["max"] = 0
        self.refuses(self.doc1, "188 SequenceBad docs 1 hello")

    def test_a_counter_too_large(self):
        self.all_versions([[1, 9223372036854775808]])
        self.refuses(self.doc1, "184 Range")

    def test_a_record_without_blocks(self):
        del self.second["own"][0]["blocks"]
        self.refuses(self.doc1, "187 RecordBad docs 2 hello")

    def test_a_view_of_itself(self):
        self.first["views"] = [view(1)]
        self.refuses(self.doc1, "186 Unshared docs 1 -")

    def test_too_many_messages(self):
        self.doc1["cut"]["links"] = [link(1, 2, to_b=[message()] * 1024)]
        self.answers(self.doc1, 0, "settled", COUNTS)
        self.doc1["cut"]["links"] = [link(1, 2, to_b=[message()] * 1025)]
        self.refuses(self.doc1, "184 Range")

    def test_equal_sequences_on_their_way(self):
        equal = message(directory("a", 2), directory("b", 2))
        self.doc1["cut"]["links"] = [link(1, 2, to_b=[message(directory("a", 1)), equal])]
        self.refuses(self.doc1, "188 SequenceBad docs 2 b")
        self.doc1["cut"]["links"] = [link(1, 2, to_b=[message(directory("a", 2)), message(directory("b", 2))])]
        self.answers(self.doc1, 1, "not settled: NameMissing docs a", "folder docs: 3 names, 2 deleted, 2 devices")

    def test_too_many_brackets(self):
        self.refuses(b"[" * 200, "181 NotJson")

    def test_a_message_to_no_device(self):
        self.doc1["cut"]["links"] = [link(1, 4, to_b=[message()])]
        self.refuses(self.doc1, "186 Unshared docs 4 -")
        self.doc1["cut"]["links"] = [link(1, 4)]
        self.refuses(self.doc1, "189 LinkBad - 1 -")

    def test_the_smallest_number_is_told_at_its_first_place(self):
        """One fault after the other is mended, the one with the smallest number first."""
        asked = copy.deepcopy(self.doc1)
        first, second = asked["cut"]["folders"][0]["devices"]
        first |= {"max": 0, "views": [view(3)], "pulls": [file("hello", [[1, 1]], invalid=True)]}
        second["own"][0] |= {"size": 6, "target": "x"}
        second["store"] *= 2
        asked["cut"]["links"] = [link(2, 1)]
        asked["certificate"][0]["device"] = 0
        asked["certificate"][0]["record"]["size"] = "5"
        asked["version"] = 3
        self.refuses(json.dumps(asked).encode() + b"}", "181 NotJson")
        self.refuses(asked, "182 VersionBad")
        asked["version"] = 1
        self.refuses(asked, "183 Shape")
        asked["certificate"][0]["record"]["size"] = 5
        self.refuses(asked, "184 Range")
        asked["certificate"][0]["device"] = 1
        self.refuses(asked, "185 Twice docs 2 hello")
        second["store"].pop()
        self.refuses(asked, "186 Unshared docs 1 -")
        first["views"] = []
        self.refuses(asked, "187 RecordBad docs 1 hello")
        first["pulls"] = []
        self.refuses(asked, "187 RecordBad docs 2 hello")
        del second["own"][0]["target"]
        second["own"][0]["size"] = 5
        self.refuses(asked, "188 SequenceBad docs 1 hello")
        first["max"] = 1
        self.refuses(asked, "189 LinkBad - 2 -")
        asked["cut"]["links"] = [link(1, 2)]
        self.answers(asked, 0, "settled", COUNTS)

    # ---- version 2

    def sized(self, block_size):
        """Gives this block size to each record of `hello`, and the document version 2."""
        self.doc1["version"] = 2
        for record in (self.first["own"][0], self.second["own"][0], self.doc1["certificate"][0]["record"]):
            record["block_size"] = block_size

    def test_a_document_of_version_2(self):
        self.doc1["version"] = 2
        self.refuses(self.doc1, "183 Shape")
        self.sized(131072)
        self.answers(self.doc1, 0, "settled", COUNTS)
        del self.doc1["certificate"][0]["record"]["block_size"]
        self.refuses(self.doc1, "183 Shape")
        self.sized(131072)
        self.first["own"][0]["block_size"] = 262144
        self.refuses(self.doc1, "187 RecordBad docs 1 hello")

    def test_what_needs_no_block_size(self):
        gone = file("gone", [[1, 1]], size=0, blocks=[], deleted=True, sequence=2)
        self.sized(131072)
        for device in (self.first, self.second):
            device["own"] += [gone, directory("there", 3)]
            device["store"].append({"name": "there", "type": 1, "modified_s": 1000})
            device["max"] = 3
        rows = [gone, self.doc1["certificate"][0]["record"], directory("there", 3)]
        self.doc1["certificate"] = [{"folder": "docs", "device": 1, "record": record} for record in rows]
        self.answers(self.doc1, 0, "settled", "folder docs: 3 names, 1 deleted, 2 devices")

    def test_files_of_each_block_size(self):
        for version, size, block_size, fault in (
                (1, 16777216, 131072, "StoreDiffers"), (1, 16777217, 131072, "184 Range"), (2, 16777217, 131072, "StoreDiffers"),
                (2, 262143999, 131072, "StoreDiffers"), (2, 262144000, 131072, "187 RecordBad docs 1 hello"),
                (2, 262144000, 262144, "StoreDiffers"), (2, 524287999, 262144, "StoreDiffers"),
                (2, 524288000, 524288, "StoreDiffers"), (2, 536870912, 524288, "StoreDiffers"),
                (2, 536870913, 524288, "184 Range")):
            with self.subTest(version=version, size=size, block_size=block_size):
                self.sized(block_size)
                self.doc1["version"] = version
                for record in (self.first["own"][0], self.second["own"][0], self.doc1["certificate"][0]["record"]):
                    record |= {"size": size, "blocks": [HELLO] * -(-size // block_size)}
                if fault == "StoreDiffers":
                    self.answers(self.doc1, 1, "not settled: StoreDiffers docs hello on 1", COUNTS)
                else:
                    self.refuses(self.doc1, fault)

    def test_a_document_too_long(self):
        self.refuses(b" " * 67108864, "181 NotJson")
        self.refuses(b" " * 67108865, "184 Range")


class Texts(unittest.TestCase):
    """What is no JSON, also in a member that isn't known and in one that is dropped."""

    VALUES = {
        "181 NotJson": ["", "01", "+1", "-", ".5", "1.", "1e", "1.e1", "0x1", "NaN", "Infinity", "-Infinity", "True", "nul",
                        "truex", "'a'", "[1,]", "[,1]", "[1 2]", "{,}", '{"a":1,}', '{"a"}', "{a:1}", "{1:2}", "// no\n1",
                        "/* no */1", "1e400", "-1e400", "1E+400", "9" * 310, "-" + "9" * 310, "1" + "0" * 309,
                        str(2**1024 - 2**970), "1.7976931348623159e308", '"\\ud83d"',
                        '"\\udc00"', '"\\ude00\\ud83d"', '"\\ud83d\\ud83d\\ude00"', '"\\ud83dx"', '{"\\ud83d":1}',
                        '["\\ud83d"]', '"\\x"', '"\\u12"', '"\\u12g4"', '"\\U0041"', '"\t"', '"\n"', '"\x00"', '"a', '"a\\"',
                        "[" * 127 + "]" * 127, "\x0b1", "\u00a01", "\ufeff1", "\u0661", "1,"],
        "182 VersionBad": ["0", "-0", "-1", "1.0", "1e0", "10e-1", "1e308", "1" + "0" * 308, "1e-400", "1.5e1",
                           str(2**1024 - 2**970 - 1), "1.7976931348623158e308",
                           "18446744073709551617", "true", "null", '"1"', "[1]", "{}", "[" * 126 + "]" * 126,
                           '"\\ud83d\\ude00"', '"\\/\\b\\f\\n\\r\\t\\u0000\x7f"', "3 \t\r\n"],
    }

    def test_values_of_a_member(self):
        for fault, values in self.VALUES.items():
            for value in values:
                with self.subTest(value=value):
                    wanted = (f"refused: {fault}\n".encode(), 2)
                    self.assertEqual(reports.answer(f'{{"version":{value}}}'.encode()), wanted)
                    dropped = "181 NotJson" if fault == "181 NotJson" else "183 Shape"
                    wanted = (f"refused: {dropped}\n".encode(), 2)
                    self.assertEqual(reports.answer(f'{{"version":{value},"version":1}}'.encode()), wanted)
                    self.assertEqual(reports.answer(f'{{"more":{value},"version":1}}'.encode()), wanted)

    def test_bytes_around_a_document(self):
        settled = reports.answer(DOC1.encode())
        for before, after in ((b" \t\r\n", b""), (b"", b" \t\r\n"), (b"\n", b"\n")):
            self.assertEqual(reports.answer(before + DOC1.encode() + after), settled)
        for before, after in ((b"\xef\xbb\xbf", b""), (b"", b"\0"), (b"", b"x"), (b"", b"}"), (b"", b"{}"), (b",", b""),
                              (b"\x0c", b""), (b"", b"\x1a"), (b"", b"\xff"), (b"", b"\xc2\xa0")):
            with self.subTest(before=before, after=after):
                self.assertEqual(reports.answer(before + DOC1.encode() + after), (b"refused: 181 NotJson\n", 2))

    def test_what_is_no_utf_8(self):
        for text in (b"\xff", b"\xc0\x80", b"\xed\xa0\xbd", b"\xf4\x90\x80\x80", b"\xc3"):
            with self.subTest(text=text):
                self.assertEqual(reports.answer(b'{"version":2,"more":"' + text + b'"}'), (b"refused: 181 NotJson\n", 2))

    def test_names_of_members_are_their_characters(self):
        escaped = DOC1.replace('"cut"', '"c\\u0075t"')
        self.assertEqual(reports.answer(escaped.encode()), reports.answer(DOC1.encode()))


if __name__ == "__main__":
    unittest.main()
