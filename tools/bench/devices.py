#!/usr/bin/env python3
"""How fast real folders are audited, and with how much memory.

    tools/bench/devices.py [--auditor FILE] [--runs N] [--room DIR] [hash] [small] [join] [wrong] [export] [sum]

'hash' audits two devices with 3.2 GB in 800 files, beside `sha256sum` of all of them on as many cores. 'small' makes the
part of a device with 100,000 files of 1 KB, beside `sha256sum` of them, from memory and from the disk. 'join' audits
three devices with 100,000, 300,000 and 1,000,000 names by their parts, and says what 10,000,000 would take. 'wrong'
audits three devices by their parts: 100,000 and 300,000 names, each of which is rotten on one of them, and 60,000 names of 1,012
bytes with rot in 150 blocks each. It says whether memory stays under 300 MB. 'export' writes the documents of three
devices with 120,000, 240,000 and 480,000 names. 'sum' exports three devices with 300,000 names, each of which has one and
the same fault, has the documents answered, and sums the answers up. It says whether both stay under 300 MB. Without a
word all are done. Homes, indexes and parts are made by Syncthing's own packages, with no device running.
"""

import argparse
import os
import shutil
import subprocess
import sys
import tempfile
import time
from concurrent.futures import ThreadPoolExecutor
from hashlib import sha256
from pathlib import Path
from statistics import linear_regression

TOP = Path(__file__).resolve().parents[2]
PROGRAM = "syncthing-audit"
RELEASE = TOP / "tools/release/syncaudit"
DEVICES, FILES, BYTES = 2, 400, 4_000_000
SIZES = (100_000, 300_000, 1_000_000)
ESTIMATED = 10_000_000
WRONG = (100_000, 300_000)
EXPORTED = (120_000, 240_000, 480_000)
FAULTS = ("unscanned", "permissions", "concurrent", "rotten")
FORMS = ("summary", "--lines", "--json")
SUMMED = 300_000
LONG, BYTES_OF_LONG = 60_000, 40_000_000
MOST_MEMORY = 300
MOST_SECONDS = 12  # of the audit of the last of SIZES
MOST_TIMES = 1.3  # of the seconds of sha256sum
SMALL, BYTES_OF_SMALL = 100_000, 1024
MOST_TIMES_OF_SMALL = 2  # of the processor seconds of sha256sum
NOT_IN_STEP = 1


def build(room):
    """Builds the audit and what makes samples."""
    environment = {**os.environ, "GO111MODULE": "off", "GOPATH": f"{TOP / 'auditor'}:/usr/share/gocode"}
    subprocess.run(["go", "build", "-o", f"{room}/", PROGRAM, f"{PROGRAM}/sample"], env=environment, check=True)


def measured(words, statuses=(0,)):
    """The seconds that a command took, its processor seconds, and the megabytes of the largest of its processes."""
    began = time.monotonic()
    process = subprocess.Popen(words, stdout=subprocess.DEVNULL, stderr=subprocess.DEVNULL)
    _, status, used = os.wait4(process.pid, 0)
    process.returncode = os.waitstatus_to_exitcode(status)
    if process.returncode not in statuses:
        raise SystemExit(f"{words[0]} ended with {process.returncode}")
    return time.monotonic() - began, used.ru_utime + used.ru_stime, used.ru_maxrss / 1024


def best(runs, words, statuses=(0,)):
    """The quickest of some runs."""
    return min(measured(words, statuses) for _ in range(runs))


def sample(room, *words):
    """Makes a sample."""
    subprocess.run([room / "sample", *map(str, words)], check=True, stdout=subprocess.DEVNULL, stderr=subprocess.DEVNULL)


def sample_parts(room, name, files, *words):
    """Makes the parts of three devices, and gives their files."""
    sample(room, "--parts", "--devices", 3, "--files", files, "--bytes", 300_000, *words, room / name)
    return sorted((room / name).glob("*.part"))


def tell(what, figures):
    """Prints what was measured."""
    print(f"{what:44} {figures[0]:8.2f} s {figures[1]:8.2f} s {figures[2]:6.0f} MB", flush=True)


def tell_lean(what, figures):
    """Prints what was measured, and ends with a failure where it took too much memory."""
    tell(what, figures)
    if figures[2] > MOST_MEMORY:
        sys.exit(f"this is over {MOST_MEMORY} MB")


def tell_goal(what, value, most):
    """Prints a figure beside what is asked of it."""
    print(f"{what}: {value:.2f}, asked are at most {most}: {'held' if value <= most else 'NOT HELD'}", flush=True)


def measure_hashing(room, asked):
    """Two devices with all bytes, beside sha256sum."""
    folder = room / "hash"
    sample(room, "--devices", DEVICES, "--files", FILES, "--bytes", BYTES, folder)
    sums = ["sh", "-c", f"find {folder}/*/files -type f -print0 | xargs -0 -n 4 -P {os.cpu_count()} sha256sum"]
    homes = [word for number in range(1, DEVICES + 1) for word in ("--home", folder / f"device{number}" / "home")]
    measured(sums)  # all files are in memory, as far as that goes
    plain = best(asked.runs, sums)
    tell(f"sha256sum of {DEVICES * FILES * BYTES / 1e9:.1f} GB, {os.cpu_count()} at once", plain)
    audit = best(asked.runs, [room / PROGRAM, "check", *homes, "--syncaudit", asked.auditor])
    tell(f"audit of {DEVICES} devices with them", audit)
    tell_goal("times the seconds of sha256sum", audit[0] / plain[0], MOST_TIMES)
    shutil.rmtree(folder)


def let_go(folder):
    """Has the system let go of all files that it has in memory, as the audit does before it reads them."""
    for path in folder.rglob("*"):
        if path.is_file():
            with path.open("rb") as file:
                os.posix_fadvise(file.fileno(), 0, 0, os.POSIX_FADV_DONTNEED)


def measure_small(room, asked):
    """A device with many small files, beside sha256sum."""
    folder = room / "small"
    sample(room, "--devices", 2, "--files", SMALL, "--bytes", BYTES_OF_SMALL, folder)
    files = folder / "device1/files"
    sums = ["sh", "-c", f"find {files} -type f -print0 | xargs -0 -P {os.cpu_count()} sha256sum"]
    measured(sums)  # all files are in memory
    warm = min((measured(sums) for _ in range(asked.runs)), key=processor_of)
    tell(f"sha256sum of {SMALL:,} files from memory", warm)
    cold = []
    for _ in range(asked.runs):
        let_go(files)
        cold.append(measured(sums))
    tell("the same from the disk", min(cold, key=processor_of))
    words = [room / PROGRAM, "part", "--home", folder / "device1/home", "-o", room / "small.part"]
    part = min((measured(words) for _ in range(asked.runs)), key=processor_of)
    tell("part of the device with them", part)
    for where, sha in (("from memory", warm), ("from the disk", min(cold, key=processor_of))):
        tell_goal(f"times the processor seconds of sha256sum {where}", processor_of(part) / processor_of(sha), MOST_TIMES_OF_SMALL)
    shutil.rmtree(folder)


def processor_of(figures):
    """The processor seconds of what was measured."""
    return figures[1]


def on_line(values, size):
    """What the straight line that is nearest to these values, one for each of SIZES, has at another size: by least squares."""
    line = linear_regression(SIZES, values)
    return line.intercept + line.slope * size


def measure_joining(room, asked):
    """Three devices by their parts, of three sizes."""
    measured_of = []
    for names in SIZES:
        parts = sample_parts(room, str(names), names)
        measured_of.append(best(asked.runs, [room / PROGRAM, "check", *parts, "--syncaudit", asked.auditor]))
        tell(f"join and audit of {names:,} names on 3 devices", measured_of[-1])
        shutil.rmtree(room / str(names))
    for names in (*SIZES, ESTIMATED):
        tell(f"{names:,} names by a straight line", [on_line(values, names) for values in zip(*measured_of)])
    tell_goal(f"seconds of {SIZES[-1]:,} names", measured_of[-1][0], MOST_SECONDS)


def in_form(form):
    """The flags that ask for a form of the answer."""
    return [] if form == "summary" else [form]


def measure_wrong(room, asked):
    """Three devices by their parts, one of which has other bytes in each file; in each form of the answer. Last, with as much
    to tell of each name as there may be."""
    samples = [(f"{names:,} rotten names", sample_parts(room, f"wrong{names}", names, "--each", "rotten")) for names in WRONG]
    samples.append((f"{LONG:,} long rotten names", sample_parts(room, "long", LONG, "--each", "long", "--bytes", BYTES_OF_LONG)))
    for what, parts in samples:
        for form in FORMS:
            words = [room / PROGRAM, "check", *parts, "--syncaudit", asked.auditor, *in_form(form)]
            tell_lean(f"audit of {what}, {form}", best(asked.runs, words, (NOT_IN_STEP,)))


def measure_export(room, asked):
    """The documents of three devices in step, of three sizes: the seconds are to grow as the names do."""
    for names in EXPORTED:
        parts = sample_parts(room, f"export{names}", names)
        figures = []
        for run in range(asked.runs):
            into = room / f"documents{names}-{run}"
            figures.append(measured([room / PROGRAM, "export", *parts, "--into", into]))
            shutil.rmtree(into)
        tell_lean(f"export of {names:,} names", min(figures))


def answer(document, auditor):
    """Has an exported document answered, as `sum` wants it."""
    answers = [subprocess.run([auditor, *words], input=document.read_bytes(), stdout=subprocess.PIPE).stdout
               for words in (["check", "--certify"], ["explain", "--certify"], ["firm", "--certify"], ["converge"])]
    document.with_suffix(".reply").write_bytes(b"".join([f"{sha256(document.read_bytes()).hexdigest()}  -\n".encode(), *answers]))


def measure_sum(room, asked):
    """Three devices whose names have one and the same fault: their documents, and the sum of the answers in each form."""
    for fault in FAULTS:
        parts, into = sample_parts(room, fault, SUMMED, "--each", fault), room / f"sum-{fault}"
        tell_lean(f"export of {SUMMED:,} names, {fault}", measured([room / PROGRAM, "export", *parts, "--into", into]))
        with ThreadPoolExecutor(os.cpu_count()) as workers:
            list(workers.map(lambda one: answer(one, asked.auditor), sorted(into.glob("cut-*.json"))))
        for form in FORMS:
            words = [room / PROGRAM, "sum", into, *in_form(form)]
            tell_lean(f"sum of {SUMMED:,} names, {fault}, {form}", best(asked.runs, words, (0, NOT_IN_STEP)))
        shutil.rmtree(into)


MEASURES = {"hash": measure_hashing, "small": measure_small, "join": measure_joining, "wrong": measure_wrong, "export": measure_export,
            "sum": measure_sum}


def main():
    parser = argparse.ArgumentParser(description=__doc__.splitlines()[0])
    parser.add_argument("what", nargs="*", metavar="WHAT", help=f"what is measured, of {', '.join(MEASURES)}; all without it")
    parser.add_argument("--auditor", default=os.environ.get("SYNCAUDIT", RELEASE))
    parser.add_argument("--runs", type=int, default=3)
    parser.add_argument("--room", default=None, help="where samples are made: 'hash' takes 3.3 GB there")
    asked = parser.parse_args()
    if unknown := set(asked.what) - set(MEASURES):
        parser.error(f"{', '.join(sorted(unknown))}: none of {', '.join(MEASURES)}")
    if not shutil.which(asked.auditor):
        sys.exit(f"{asked.auditor} isn't there: --auditor names another")
    print(f"load {os.getloadavg()[0]:.1f} on {os.cpu_count()} processors when this begins")
    print(f"{'':44} {'seconds':>10} {'processor':>10} {'memory':>9}")
    with tempfile.TemporaryDirectory(prefix="syncthing-audit-bench-", dir=asked.room) as made:
        room = Path(made)
        build(room)
        for word in asked.what or MEASURES:
            MEASURES[word](room, asked)


if __name__ == "__main__":
    main()
