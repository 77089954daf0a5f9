#!/usr/bin/env python3
"""Real Syncthing devices on loopback that an observer audits beside a device that keeps to no rule.

    auditor/test/observed_liars.py
"""

import base64
import hashlib
import socket
import ssl
import struct
import threading

from exporting import main
from observed import Observing
from syncthing import FOLDER, Device, wait_until_in_step

MAGIC = 0x2EA7D90B
CLUSTER_CONFIG, INDEX, INDEX_UPDATE, REQUEST, RESPONSE = 0, 1, 2, 3, 4


def varint(number):
    """A number as protobuf writes it."""
    made = bytearray()
    while number > 127:
        made.append(number & 127 | 128)
        number >>= 7
    return bytes([*made, number])


def field(number, value):
    """A field of a message: a number, or a text."""
    if isinstance(value, int):
        return varint(number << 3) + varint(value)
    return varint(number << 3 | 2) + varint(len(value)) + value


def bytes_of(device_id):
    """A device id without its check digits, as bytes."""
    text = device_id.replace("-", "")
    return base64.b32decode("".join(text[at:at + 13] for at in range(0, 56, 14)) + "====")


def record(name, sequence, size=5):
    """A record of a file."""
    block = field(2, size) + field(3, hashlib.sha256(b"a").digest())
    return field(1, name) + field(3, size) + field(9, field(1, field(1, 7) + field(2, 1))) + field(10, sequence) + field(12, 7) + field(16, block)


class Liar:
    """A device that has a key and answers with what it likes, on one connection."""

    def __init__(self, home, index, answer):
        self.home, self.index, self.answer = home, index, answer
        self.listener = socket.create_server(("127.0.0.1", 0))
        self.port = self.listener.getsockname()[1]

    def start(self, own, observer):
        """Takes a connection in a thread of its own."""
        self.thread = threading.Thread(target=self.run, args=(own, observer), daemon=True)
        self.thread.start()

    def run(self, own, observer):
        context = ssl.SSLContext(ssl.PROTOCOL_TLS_SERVER)
        context.load_cert_chain(self.home / "cert.pem", self.home / "key.pem")
        context.set_alpn_protocols(["bep/1.0"])
        try:
            with self.listener, context.wrap_socket(self.listener.accept()[0], server_side=True) as self.stream:
                self.speak(own, observer)
        except (OSError, EOFError):
            pass

    def speak(self, own, observer):
        hello = field(1, b"liar") + field(2, b"syncthing") + field(3, b"v1.29.5")
        self.stream.sendall(struct.pack(">IH", MAGIC, len(hello)) + hello)
        self.read(struct.unpack(">IH", self.read(6))[1])
        devices = field(16, field(1, own) + field(6, 9) + field(8, 42)) + field(16, field(1, observer) + field(8, 1))
        self.send(CLUSTER_CONFIG, field(1, field(1, FOLDER.encode()) + devices))
        for number, records in enumerate(self.index):
            self.send(INDEX_UPDATE if number else INDEX, field(1, FOLDER.encode()) + b"".join(field(2, one) for one in records))
        while True:
            header = self.read(struct.unpack(">H", self.read(2))[0])
            body = self.read(struct.unpack(">I", self.read(4))[0])
            if header == field(1, REQUEST):
                self.send(RESPONSE, body[:2] + field(2, self.answer))

    def read(self, length):
        made = b""
        while len(made) < length:
            more = self.stream.recv(length - len(made))
            if not more:
                raise EOFError
            made += more
        return made

    def send(self, kind, body):
        header = field(1, kind) if kind else b""
        self.stream.sendall(struct.pack(">H", len(header)) + header + struct.pack(">I", len(body)) + body)


def endless():
    """An index that goes on without an end, in sequences that don't rise."""
    while True:
        yield [record(b"a", 9)]


class ObservedLiars(Observing):
    """A device that breaks the protocol costs its own part alone: the others are answered for, and nothing at them changes."""

    __test__ = True
    names = ("one", "two")

    @classmethod
    def configure(cls):
        cls.liar = Device(cls.room, "liar")
        super().configure()
        for device in cls.devices:
            device.configure([*cls.devices, cls.observer, cls.liar])

    def told_of(self, liar, why):
        """Checks that an answer tells of the two devices, and why it has nothing of the liar."""
        self.start()
        self.addCleanup(self.stop)
        wait_until_in_step(*self.devices)
        before = [self.state(device) for device in self.devices]
        liar.start(bytes_of(self.liar.id), bytes_of(self.observer.id))
        self.liar.listen_port = liar.port
        ran = self.observe(devices=[*self.devices, self.liar])
        self.assertIn(why, ran.stderr)
        self.assertEqual(ran.returncode, 6, ran.stderr)
        self.assertRegex(ran.stdout, r"^docs: in step as far as seen over the wire, .*: 6 names ")
        self.assertIn(f"left out: docs of {self.liar.id}", ran.stdout)
        self.assertEqual(before, [self.state(device) for device in self.devices])

    def test_an_endless_index(self):
        self.told_of(Liar(self.liar.home, endless(), b""), "sequences in its index don't rise")

    def test_answers_of_another_length(self):
        self.told_of(Liar(self.liar.home, [[record(b"a", 9)]], b"too long"), "an answer hasn't the length that was asked for")


if __name__ == "__main__":
    main()
