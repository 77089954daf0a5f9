"""Real Syncthing devices in step, stopped, and the audit run on them."""

import contextlib
import json
import os
import shutil
import subprocess
import tempfile
import time
import unittest
from hashlib import sha256
from pathlib import Path

from syncthing import FOLDER, SECONDS_TO_WAIT, Device, programs, wait_until_in_step

SOURCES = Path(__file__).resolve().parents[1]
PROGRAM = "syncthing-audit"
SAMPLE = f"{PROGRAM}/sample"
OVERWIRE = f"{PROGRAM}/overwire"
GOPATH = Path("/usr/share/gocode")
NEEDED = {"golang-go": lambda: shutil.which("go"), "syncthing": lambda: all(map(shutil.which, programs())),
          "golang-github-syncthing-syncthing-dev":
              lambda: (GOPATH / "src/github.com/syncthing/syncthing/lib/db").is_dir()}
BUILT = SOURCES.parent / "crates/syncaudit/out/syncaudit"
STAND_IN = Path(__file__).with_name("stand_in.py")
# The variable with the time, by the monotonic clock, from which on no case is begun.
UNTIL = "SYNCTHING_AUDIT_UNTIL"
# What a person reads of a folder that is in step and firm.
IN_STEP = "in step and firm"
NOT_SIGNED = "not signed: the part of "
STATUSES = {"settled": 0, "settled as far as audited": 6}


def make_endless(directory):
    """Makes a directory with more bytes than any machine hashes while a test waits; it takes no room. Of a file that is much longer than each
    record of it not all bytes are hashed, so there are many files."""
    directory.mkdir()
    for number in range(512):
        with (directory / f"{number:03}").open("wb") as file:
            file.truncate(1 << 32)


def to_the_end(terminal):
    """What is told to a terminal until nobody writes there any more."""
    told = b""
    with contextlib.suppress(OSError):  # so a terminal ends
        while more := os.read(terminal, 4096):
            told += more
    return told


def missing_packages():
    """The Debian packages that are missing."""
    return [package for package, is_there in NEEDED.items() if not is_there()]


def go_environment(room):
    """The environment for Go: these sources and Debian's packages; what it keeps stands in this room where it has no place of its own
    that can be written."""
    made = {**os.environ, "GO111MODULE": "off", "GOPATH": f"{SOURCES}:{GOPATH}", "GOENV": "off", "GOFLAGS": "", "GOTOOLCHAIN": "local"}
    cache = subprocess.run(["go", "env", "GOCACHE"], env=made, capture_output=True, text=True).stdout.strip()
    if cache.startswith("/"):
        try:
            os.makedirs(cache, exist_ok=True)
            if os.access(cache, os.W_OK):
                return made
        except OSError:
            pass
    return {**made, "GOCACHE": str(room / "go-cache")}


def build_words(directory):
    """The command that builds the audit, what makes samples for it, and what asks devices over the wire, in a directory."""
    return ["go", "build", "-p", "1", "-o", f"{directory}/", PROGRAM, SAMPLE, OVERWIRE]


def built(room):
    """The directory with these programs: $SYNCTHING_AUDIT, or built in this room where they aren't yet."""
    if "SYNCTHING_AUDIT" in os.environ:
        return Path(os.environ["SYNCTHING_AUDIT"])
    subprocess.run(build_words(room), env=go_environment(room), check=True)
    return room


def auditor():
    """The program that audits: $SYNCAUDIT, the one that is built here, or where none is, what stands for it."""
    return os.environ.get("SYNCAUDIT") or str(BUILT if BUILT.exists() else STAND_IN)


def put_replies(documents):
    """Puts the whole answer to each exported document beside it."""
    for document in documents.glob("cut-*.json"):
        replies = [subprocess.run([auditor(), *words], input=document.read_bytes(), capture_output=True).stdout
                   for words in (["check", "--certify"], ["explain", "--certify"], ["firm", "--certify"], ["converge"])]
        document.with_suffix(".reply").write_bytes(b"".join([f"{sha256(document.read_bytes()).hexdigest()}  -\n".encode(), *replies]))


def is_on_firmness(line):
    """Whether a line says that a folder is firm, or what keeps it from that."""
    return line.startswith(("firm: ", "not firm: ", "not known to be firm: ", "may change by itself: "))


def without_devices(lines):
    """The lines but for the names of devices, which stand last, and for those on signatures."""
    return [line for line in lines if not line.startswith(("device ", NOT_SIGNED))]


def is_on_convergence(line):
    """Whether a line says whether a folder comes right by itself."""
    return line.startswith(("converging: ", "not converging: ", "not known to converge: "))


def without_firmness(lines):
    """The lines but for those on firmness and on convergence, and without devices."""
    return without_devices(line for line in lines if not is_on_firmness(line) and not is_on_convergence(line))


def is_over():
    """Whether the time is over in which cases are begun."""
    return UNTIL in os.environ and time.monotonic() > float(os.environ[UNTIL])


def run(words, **options):
    """Runs a command, which fails if it takes too long, and gives what it wrote."""
    return subprocess.run(words, capture_output=True, text=True, timeout=SECONDS_TO_WAIT, **options)


def shown(program, part):
    """The lines of JSON that a part has."""
    return run([program, "part", "--show", part], check=True).stdout.splitlines(keepends=True)


class Exporting(unittest.TestCase):
    """Devices in step, stopped. A case leaves them as they were."""

    names = ("one", "two")
    kinds = {}
    # Whether the files are too large for documents with bytes.
    is_large = False

    @classmethod
    def setUpClass(cls):
        if is_over():
            raise unittest.SkipTest("the time is over")
        os.umask(0o022)
        room = tempfile.TemporaryDirectory(prefix="syncthing-audit-test-")
        cls.addClassCleanup(room.cleanup)
        cls.room = Path(room.name)
        cls.program = built(cls.room) / PROGRAM
        cls.auditor = auditor()
        cls.devices = [Device(cls.room, name) for name in cls.names]
        cls.one, cls.two = cls.devices[:2]
        for device in cls.devices:
            cls.addClassCleanup(device.stop)
        cls.configure()
        cls.start()
        cls.synchronise()
        cls.while_running = cls.check()
        cls.stop()
        cls.numbers = cls.device_numbers()

    def setUp(self):
        if is_over():
            self.skipTest("the time is over")

    @classmethod
    def configure(cls):
        """Shares the folder among all devices, in the kind of each."""
        for device in cls.devices:
            device.configure(cls.devices, kind=cls.kinds.get(device.home.parent.name, "sendreceive"))

    @classmethod
    def start(cls):
        for device in cls.devices:
            device.start()

    @classmethod
    def stop(cls):
        for device in cls.devices:
            device.stop()

    @classmethod
    def synchronise(cls):
        """Makes one name of each kind and a deletion, and has them on all devices."""
        files = cls.one.files
        (files / "text").write_text("hello")
        (files / "empty").touch()
        (files / "folder").mkdir()
        (files / "folder" / "large").write_bytes(bytes(range(256)) * 1024 + b"end")
        (files / "link").symlink_to("folder/large")
        (files / "doomed").write_text("doomed")
        cls.scan_and_wait()
        (files / "doomed").unlink()
        cls.scan_and_wait()

    @classmethod
    def scan_and_wait(cls):
        """Scans the first device's folder, and waits until all devices are in step."""
        cls.one.scan()
        wait_until_in_step(*cls.devices)

    @classmethod
    def export(cls, *words):
        """Exports the documents of all homes."""
        return cls.on_homes("export", [device.home for device in cls.devices], *words)

    @classmethod
    def check(cls, *words):
        """Audits all homes."""
        return cls.check_homes([device.home for device in cls.devices], *words)

    @classmethod
    def check_homes(cls, homes, *words):
        """Audits these homes."""
        return cls.on_homes("check", homes, "--lines", "--syncaudit", cls.auditor, *words)

    @classmethod
    def on_homes(cls, command, homes, *words):
        """Runs a command on these homes."""
        return run([cls.program, command, *(word for home in homes for word in ("--home", home)), *words])

    @classmethod
    def foretold(cls):
        """What the answer foretells of each name that isn't at rest, if nobody does anything."""
        ran = cls.on_homes("check", [device.home for device in cls.devices], "--syncaudit", cls.auditor, "--json")
        return {fate["name"]: fate for fate in json.loads(ran.stdout)["folders"][0]["outlook"]["fates"]}

    def untrue(self, fates, *names):
        """The ends to which these names came, and that weren't told."""
        from foretold import ends_of, shapes_on
        shapes = [shapes_on(device, fates) for device in self.devices]
        made = []
        for name in names:
            told = ends_of(fates[name], [device.id for device in self.devices]) if fates[name]["fate"] != "not-known" else []
            came = tuple(shape.get(name, (None, ())) for shape in shapes)
            made += [] if came in told else [f"{name} ({fates[name]['fate']}) came to {came}, and was told to come to {told}"]
        return made

    def assert_came(self, fates, *names):
        """Each of these names came to an end that was told."""
        self.assertTrue(names)
        self.assertEqual(self.untrue(fates, *names), [])

    @classmethod
    def check_parts(cls, parts, *words):
        """Audits these parts. The lines that no signature was checked are left out: homes have none."""
        ran = run([cls.program, "check", *parts, "--lines", "--syncaudit", cls.auditor, *words])
        ran.stdout = "".join(line for line in ran.stdout.splitlines(True) if not line.startswith(NOT_SIGNED))
        return ran

    @classmethod
    def part(cls, device, *words):
        """Makes a device's part, and gives its path."""
        path = cls.room / f"{device.home.parent.name}.part"
        run([cls.program, "part", "--home", device.home, "-o", path, *words], check=True)
        return path

    @classmethod
    def shown(cls, device, *words):
        """Makes a device's part, and gives its lines of JSON."""
        return shown(cls.program, cls.part(device, *words))

    @classmethod
    def lines(cls, program, device):
        """The lines of a device's part, as a program makes it, but for when that was."""
        made = cls.room / "made.part"
        run([program, "part", "--home", device.home, "-o", made], check=True)
        lines = [json.loads(line) for line in shown(program, made)]
        del lines[0]["made"]
        return lines

    @classmethod
    def device_numbers(cls):
        """The devices' numbers, by their ids, as the exporter tells them."""
        lines = [line.split() for line in cls.export().stderr.splitlines() if ": device " in line]
        return {words[4]: int(words[2]) for words in lines}

    @classmethod
    def number(cls, device):
        """A device's number."""
        return cls.numbers[device.id]

    def document(self, *words):
        """The exported document, with bytes."""
        ran = self.export("--bytes", *words)
        self.assertEqual(ran.returncode, 0, ran.stderr)
        return json.loads(ran.stdout)

    def report(self, *words):
        """The lines that an audit of the devices writes, but for those on firmness and on convergence, which are kept. With bytes
        they are the same, and so they are by parts."""
        ran = self.check(*words)
        lines = ran.stdout.splitlines()
        self.assertTrue(lines, ran.stderr)
        self.assertEqual(ran.returncode, STATUSES.get(lines[0], 1), ran.stderr)
        if not self.is_large:
            self.assertEqual(self.check("--bytes", *words).stdout.splitlines(), lines)
        self.firmness = [line for line in lines if is_on_firmness(line)]
        self.convergence = [line for line in lines if is_on_convergence(line)]
        return without_firmness(lines)

    def verdict(self, *words):
        """The first line of what an audit writes."""
        return self.report(*words)[0]

    def fault(self, reason, name, device=None):
        """The verdict of this reason on the folder."""
        return f"not settled: {self.failure(reason, name, device)}"

    def failure(self, reason, name, device=None):
        """The line of this failure."""
        return f"{reason} {FOLDER} {name}" + (f" on {self.number(device)}" if device else "")

    def refused(self, *words):
        """What the audit says as it refuses, strictly."""
        ran = self.check("--strict", *words)
        self.assertEqual((ran.returncode, ran.stdout), (2, ""), ran.stderr)
        return ran.stderr

    def assert_left_out(self, name, kind, *more):
        """An audit leaves out this kind and says so of the name, and is settled as far as it goes; a strict one is refused, but for this kind."""
        self.assertRegex(self.refused(), f"(1 refused; --leave-out {kind} leaves it|--leave-out {kind} leaves them) out")
        lines = self.report()
        self.assertEqual(self.report("--strict", "--leave-out", kind), lines)
        self.assertEqual(lines[0], "settled as far as audited")
        self.assertEqual([line.split(" on ")[0] for line in lines[2:]], [f"left out: {FOLDER} {name}", *more])


def main():
    """Runs the cases of the script, or says what is missing."""
    if missing_packages():
        raise SystemExit("missing Debian packages: " + " ".join(missing_packages()))
    unittest.main()
