#!/usr/bin/env python3
"""How much memory and time an observer takes of two devices with many small files.

    tools/bench/observing.py [--files N] [--records] [--auditor FILE]

The devices are made up: they speak the protocol as Syncthing does, in a process of their own each, and each of their files has five bytes. It says what
`syncthing-audit observe` and what it calls took at most. With --records no bytes are asked for; else all are. It needs Syncthing for the devices' keys,
and fails where the memory is over 300 MB.
"""

import argparse
import hashlib
import multiprocessing
import os
import socket
import ssl
import struct
import subprocess
import sys
import tempfile
import time
import zlib
from pathlib import Path

TOP = Path(__file__).resolve().parents[2]
sys.path.insert(0, str(TOP / "auditor/test"))

from observed_liars import CLUSTER_CONFIG, INDEX, INDEX_UPDATE, MAGIC, REQUEST, RESPONSE, bytes_of, field  # noqa: E402
from syncthing import FOLDER, Device  # noqa: E402

DATA = b"aaaaa"
RECORDS_AT_ONCE = 1000
AT_ONCE = 1 << 20
NO_SUCH_FILE = 2
MOST_MEMORY = 300
IN_STEP_AS_FAR = 6


def record(number):
    """A record of a file with five bytes."""
    block = field(2, len(DATA)) + field(3, hashlib.sha256(DATA).digest())
    name = f"directory {number // 1000:06}/file {number:09}".encode()
    return (field(1, name) + field(3, len(DATA)) + field(5, 1_700_000_000) + field(9, field(1, field(1, 7) + field(2, 1))) + field(10, number) +
            field(12, 7) + field(16, block))


def fields(body):
    """The numbers and texts of a message, by their fields."""
    found, at = {}, 0

    def number():
        nonlocal at
        value = shift = 0
        while True:
            byte = body[at]
            at += 1
            value |= (byte & 127) << shift
            if byte < 128:
                return value
            shift += 7
    while at < len(body):
        key = number()
        if key & 7 == 2:
            length = number()
            found[key >> 3] = body[at:at + length]
            at += length
        else:
            found[key >> 3] = number()
    return found


def frame(kind, body):
    """A message as it is sent."""
    header = field(1, kind) if kind else b""
    return struct.pack(">H", len(header)) + header + struct.pack(">I", len(body)) + body


def response(body):
    """What Syncthing answers: bytes, or that there are none with this weak hash."""
    asked = fields(body)
    found = DATA[asked.get(4, 0):asked.get(4, 0) + asked[5]]
    if asked.get(6) and zlib.adler32(found) != asked.get(8) and hashlib.sha256(found).digest() != asked[6]:
        return frame(RESPONSE, field(1, asked[1]) + field(3, NO_SUCH_FILE))
    return frame(RESPONSE, field(1, asked[1]) + field(2, found.ljust(asked[5], b"\0")))


class MadeUp:
    """A device with many files, all of which are on its disk."""

    def __init__(self, home, own, others, files):
        self.home, self.own, self.others, self.files = home, own, others, files
        self.listener = socket.create_server(("127.0.0.1", 0))
        self.port = self.listener.getsockname()[1]

    def serve(self):
        """Takes two connections, one after the other: that of the first look and that of the second one."""
        context = ssl.SSLContext(ssl.PROTOCOL_TLS_SERVER)
        context.load_cert_chain(self.home / "cert.pem", self.home / "key.pem")
        context.set_alpn_protocols(["bep/1.0"])
        for is_first in True, False:
            try:
                with context.wrap_socket(self.listener.accept()[0], server_side=True) as stream:
                    self.speak(stream, is_first)
            except (OSError, EOFError):
                pass

    def speak(self, stream, is_first):
        """Says who it is, tells its index at the first look, and answers requests."""
        hello = field(1, b"made up") + field(2, b"syncthing") + field(3, b"v1.29.5")
        stream.sendall(struct.pack(">IH", MAGIC, len(hello)) + hello)
        devices = field(16, field(1, self.own) + field(6, self.files) + field(8, self.own[7] + 1))
        for other in self.others:
            devices += field(16, field(1, other) + field(6, self.files) + field(8, other[7] + 1))
        stream.sendall(frame(CLUSTER_CONFIG, field(1, field(1, FOLDER.encode()) + devices)))
        for first in range(1, self.files + 1 if is_first else 0, RECORDS_AT_ONCE):
            records = b"".join(field(2, record(number)) for number in range(first, min(first + RECORDS_AT_ONCE, self.files + 1)))
            stream.sendall(frame(INDEX if first == 1 else INDEX_UPDATE, field(1, FOLDER.encode()) + records))
        self.answer(stream)

    def answer(self, stream):
        """Answers requests until the connection ends."""
        held, is_greeted = b"", False
        while True:
            more = stream.recv(AT_ONCE)
            if not more:
                return
            held += more
            answers, at = [], 0
            if not is_greeted and len(held) >= 6:
                at, is_greeted = 6 + struct.unpack(">IH", held[:6])[1], True
            while len(held) >= at + 2:
                header = struct.unpack(">H", held[at:at + 2])[0]
                begin = at + 2 + header + 4
                if len(held) < begin:
                    break
                end = begin + struct.unpack(">I", held[begin - 4:begin])[0]
                if len(held) < end:
                    break
                if held[at + 2:at + 2 + header] == field(1, REQUEST):
                    answers.append(response(held[begin:end]))
                at = end
            held = held[at:]
            if answers:
                stream.sendall(b"".join(answers))


def build(room):
    """Builds the audit."""
    environment = {**os.environ, "GO111MODULE": "off", "GOFLAGS": "", "GOPATH": f"{TOP / 'auditor'}:/usr/share/gocode"}
    subprocess.run(["go", "build", "-o", f"{room}/", "syncthing-audit"], env=environment, check=True)
    return room / "syncthing-audit"


def main():
    words = argparse.ArgumentParser(description=__doc__, formatter_class=argparse.RawDescriptionHelpFormatter)
    words.add_argument("--files", type=int, default=1_000_000)
    words.add_argument("--records", action="store_true")
    words.add_argument("--auditor", type=Path)
    asked = words.parse_args()
    with tempfile.TemporaryDirectory(prefix="observing-") as room:
        room = Path(room)
        program = asked.auditor or build(room)
        homes = [Device(room, name) for name in ("one", "two")]
        ran = subprocess.run([program, "observe", "--init", "--home", room / "observer"], check=True, capture_output=True, text=True)
        ids = [bytes_of(device.id) for device in homes]
        observer = bytes_of(ran.stdout.strip())
        made = [MadeUp(device.home, own, [other for other in [*ids, observer] if other != own], asked.files) for device, own in zip(homes, ids)]
        served = [multiprocessing.Process(target=one.serve, daemon=True) for one in made]
        for one in served:
            one.start()
        command = [program, "observe", "--home", room / "observer", "--folder", FOLDER, "--still", "0",
                   "--syncaudit", os.environ.get("SYNCAUDIT", TOP / "tools/release/syncaudit"), *(["--records"] if asked.records else []),
                   *(f"{device.id}@tcp://127.0.0.1:{one.port}" for device, one in zip(homes, made))]
        began = time.monotonic()
        process = subprocess.Popen(command, stdout=subprocess.PIPE, text=True)
        told = process.stdout.readline()
        process.stdout.read()
        _, status, used = os.wait4(process.pid, 0)
        process.returncode = os.waitstatus_to_exitcode(status)
    print(told, end="")
    memory = used.ru_maxrss / 1024
    print(f"{asked.files} files on two devices: {memory:.0f} MB, {time.monotonic() - began:.0f} seconds, {used.ru_utime + used.ru_stime:.0f} processor seconds")
    return int(process.returncode != IN_STEP_AS_FAR or memory > MOST_MEMORY)


if __name__ == "__main__":
    sys.exit(main())
