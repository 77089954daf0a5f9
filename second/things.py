"""The things of check documents, each inside its range, and the fault for which a document is refused."""

from json_text import U64

I63 = 2**63 - 1
BLOCK = 131072
BLOCK_SIZES = [BLOCK << power for power in range(8)]
# The most bytes of a file, by the version of the document.
MOST_FILE = {1: 16777216, 2: 536870912}


class Fault(Exception):
    """Why a document is refused: a number, and from 185 on the place (folder, device, name)."""

    def __init__(self, number, *place):
        super().__init__(number)
        self.number = number
        self.place = place


def block_size_of(length):
    """The bytes in each block but the last of a file of this length: the first size of which the file has fewer than 2000."""
    return next((size for size in BLOCK_SIZES if length < 2000 * size), BLOCK_SIZES[-1])


def within(number, low, high):
    if not low <= number <= high:
        raise Fault(184)
    return number


def at_most(items, most):
    if len(items) > most:
        raise Fault(184)
    return items


def passed(test, value):
    if not test:
        raise Fault(184)
    return value


def file_name(text):
    name = text.encode()
    parts = text.split("/")
    return passed(1 <= len(name) <= 1024 and "\0" not in text and not {"", ".", ".."} & set(parts), name)


def folder_name(text):
    return passed(1 <= len(text) <= 64 and all(c.isascii() and (c.isalnum() or c in "-_") for c in text), text.encode())


def link_target(text):
    target = text.encode()
    return passed(len(target) <= 1024 and "\0" not in text, target)


def from_hex(text):
    digits = set("0123456789abcdefABCDEF")
    return bytes.fromhex(passed(len(text) % 2 == 0 and set(text) <= digits, text))


def version_vector(pairs):
    low = 0
    for device, value in at_most(pairs, 16):
        within(device, low + 1, U64)
        within(value, 1, I63)
        low = device
    return dict(map(tuple, pairs))


def record(value, version):
    kind = passed(value["type"] in (0, 1, 4), value["type"])
    deleted = value.get("deleted", False)
    usual = BLOCK if kind == 0 and not deleted else 0
    return {
        "name": file_name(value["name"]), "kind": kind, "deleted": deleted, "invalid": value.get("invalid", False),
        "seconds": within(value["modified_s"], -(2**63), I63),
        "nanoseconds": within(value.get("modified_ns", 0), 0, 999999999),
        "modified_by": within(value["modified_by"], 1, U64), "version": version_vector(value["version"]),
        "sequence": within(value["sequence"], 0, I63), "size": within(value.get("size", 0), 0, MOST_FILE[version]),
        "block_size": within(value.get("block_size", usual), 0, 2**32 - 1),
        "hashes": [from_hex(passed(len(text) == 64, text)) for text in value.get("blocks", [])],
        "target": link_target(value.get("target", "")),
    }


def node(value, version):
    return {
        "name": file_name(value["name"]), "kind": passed(value["type"] in (0, 1, 4), value["type"]),
        "seconds": within(value["modified_s"], -(2**63), I63),
        "nanoseconds": within(value.get("modified_ns", 0), 0, 999999999),
        "bytes": at_most(value["text"].encode() if "text" in value else from_hex(value.get("hex", "")), MOST_FILE[version]),
        "target": link_target(value.get("target", "")),
    }


def records(values, most, version):
    return [record(value, version) for value in at_most(values, most)]


def view(value, version):
    return {"of": within(value["of"], 1, U64), "index_id": within(value["index_id"], 0, U64),
            "max": within(value["max"], 0, I63), "records": records(value["records"], 4096, version)}


def share(value, version):
    kinds = ("send-receive", "send-only", "receive-only")
    return {
        "device": within(value["device"], 1, U64), "kind": passed(value["kind"] in kinds, value["kind"]),
        "index_id": within(value["index_id"], 1, U64), "max": within(value["max"], 0, I63),
        "own": records(value.get("own", []), 4096, version),
        "store": [node(item, version) for item in value.get("store", [])],
        "views": [view(item, version) for item in value.get("views", [])],
        "pulls": records(value.get("pulls", []), 64, version),
    }


def message(value, version):
    return {"folder": folder_name(value["folder"]), "full": value["full"],
            "records": records(value["records"], 1000, version)}


def messages(values, version):
    return [message(value, version) for value in at_most(values, 1024)]


def link(value, version):
    return {"a": within(value["a"], 1, U64), "b": within(value["b"], 1, U64), "up": value["up"],
            "epoch": within(value["epoch"], 0, I63), "to_a": messages(value.get("to_a", []), version),
            "to_b": messages(value.get("to_b", []), version)}


def cut_and_rows(value):
    version = value["version"]
    folders = [{"folder": folder_name(item["folder"]), "shares": [share(one, version) for one in item["devices"]]}
               for item in at_most(value["cut"]["folders"], 16)]
    at_most({one["device"] for folder in folders for one in folder["shares"]}, 16)
    return {
        "version": version, "folders": folders, "links": [link(item, version) for item in value["cut"].get("links", [])],
        "rows": [{"folder": folder_name(item["folder"]), "device": within(item["device"], 1, U64),
                  "record": record(item["record"], version)} for item in value["certificate"]],
    }
