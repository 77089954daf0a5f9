"""Check documents: the certificate that an exported cut lacks, and the answer, both by the second reading in second/."""

import json
import sys
from pathlib import Path

sys.path.insert(0, str(Path(__file__).resolve().parents[2] / "second"))

from reading import read_check  # noqa: E402
from reports import answer  # noqa: E402
from verdict import Cut  # noqa: E402


def encoded(value):
    """The document's bytes."""
    return json.dumps(value).encode()


def with_certificate(written, rows):
    """The bytes of an exported cut's document, which has no certificate yet, with these rows as its certificate."""
    return written[:written.rindex(b"}")] + b',"certificate":' + encoded(rows) + b"}\n"


def known(cut):
    """Each known folder and name, rising."""
    return [(folder, name) for folder in cut.folders for name in sorted(cut.known(folder))]


def certified(written):
    """The bytes of an exported cut's document with its certificate; without one, the first known folder and name that
    has no winner."""
    cut = Cut(read_check(with_certificate(written, [])))
    own = {(folder["folder"].encode(), share["device"], record["name"].encode()): record
           for folder in json.loads(written)["cut"]["folders"] for share in folder["devices"] for record in share["own"]}
    rows = []
    for folder, name in known(cut):
        winner = cut.winner(folder, name)
        if not winner:
            return None, (folder, name)
        rows.append({"folder": folder.decode(), "device": winner[0], "record": own[folder, winner[0], name]})
    return with_certificate(written, rows), None
