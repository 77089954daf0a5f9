"""gate.py LOG COMMAND..: runs the gate's command with its output in LOG, and prints its processor seconds by crate.

A check's command line says what it is for: the crate's name, and '--test' for tests; an edit's works in a folder of its own. Each
process of the command's tree is looked at five times a second, so the last moments of each go unseen; the whole is exact.
"""

import os
import re
import resource
import subprocess
import sys
import time

TICKS = os.sysconf("SC_CLK_TCK")
PAGE = os.sysconf("SC_PAGE_SIZE")
PHASES = ("proofs", "tests", "edits")


def processes():
    """The parent, the processor seconds and the bytes of memory of each process that there is."""
    found = {}
    for name in os.listdir("/proc"):
        if name.isdigit():
            try:
                with open(f"/proc/{name}/stat", encoding="utf-8", errors="replace") as stat:
                    fields = stat.read().rpartition(")")[2].split()
            except OSError:
                continue
            found[int(name)] = (int(fields[1]), (int(fields[11]) + int(fields[12])) / TICKS, int(fields[21]) * PAGE)
    return found


def stolen():
    """The processor seconds since the start of the machine in which its host had others run, 0 where it doesn't tell."""
    with open("/proc/stat", encoding="utf-8") as stat:
        fields = stat.readline().split()
    return int(fields[8]) / TICKS if len(fields) > 8 else 0.0


def below(top, found):
    """The processes of the tree under this one."""
    children = {}
    for process, (parent, _, _) in found.items():
        children.setdefault(parent, []).append(process)
    tree, waiting = [], [top]
    while waiting:
        more = children.get(waiting.pop(), [])
        tree += more
        waiting += more
    return tree


def purpose(process):
    """The crate and the phase that a process works for, None where its words don't tell."""
    try:
        with open(f"/proc/{process}/cmdline", "rb") as line:
            words = line.read().decode(errors="replace").split("\0")
        folder = os.readlink(f"/proc/{process}/cwd")
    except OSError:
        return None
    if "--crate-name" not in words[:-1]:
        return None
    crate = words[words.index("--crate-name") + 1]
    if re.search(r"/rt-edits?-", folder):
        return crate, "edits"
    return crate, "tests" if "--test" in words else "proofs"


def main():
    log, command = sys.argv[1], sys.argv[2:]
    begin, taken = time.time(), stolen()
    seen, proved = {}, {}
    peak = most_memory = greatest = 0
    with open(log, "wb") as out:
        gate = subprocess.Popen(command, stdin=subprocess.DEVNULL, stdout=out, stderr=subprocess.STDOUT)
        while gate.poll() is None:
            found = processes()
            tree = below(gate.pid, found)
            working = memory = 0
            for process in tree:
                told = purpose(process)
                if told:
                    working += 1
                    memory += found[process][2]
                    greatest = max(greatest, found[process][2])
                    if told[1] == "proofs":
                        proved[told[0]] = time.time() - begin
                    # a number may come again for another process, which then has other words or fewer seconds
                    key = (process, *told)
                    kept = seen.setdefault(key, [0.0, 0.0])
                    now = found[process][1]
                    if now < kept[1]:
                        kept[0] += kept[1]
                    kept[1] = now
            peak = max(peak, working)
            most_memory = max(most_memory, memory)
            time.sleep(0.2)
    wall = time.time() - begin
    used = resource.getrusage(resource.RUSAGE_CHILDREN)
    whole = used.ru_utime + used.ru_stime

    table = {}
    for (_, crate, phase), (past, last) in seen.items():
        row = table.setdefault(crate, dict.fromkeys(PHASES, 0.0))
        row[phase] += past + last
    print(f"\n{'crate':14}" + "".join(f"{phase:>9}" for phase in PHASES) + f"{'all':>9}   processor seconds; minutes until it was proved")
    for crate, row in sorted(table.items(), key=lambda it: -sum(it[1].values())):
        print(f"{crate:14}" + "".join(f"{row[phase]:9.0f}" for phase in PHASES) + f"{sum(row.values()):9.0f}{proved.get(crate, 0) / 60:9.1f}")
    sums = {phase: sum(row[phase] for row in table.values()) for phase in PHASES}
    print(f"{'sum':14}" + "".join(f"{sums[phase]:9.0f}" for phase in PHASES) + f"{sum(sums.values()):9.0f}")
    print(f"{'other':14}{'':27}{whole - sum(sums.values()):9.0f}   compiling, running, and what went unseen")
    print(f"{'whole':14}{'':27}{whole:9.0f}   {whole / 60:.1f} processor minutes")
    print(f"\nwall time {int(wall // 60)} min {int(wall % 60)} s, at most {peak} checks at once, status {gate.returncode}")
    print(f"the host had others run for {(stolen() - taken) / 60:.1f} processor minutes")
    print(f"memory: at most {most_memory / 1e9:.1f} GB, {greatest / 1e9:.1f} GB in one check")
    with open(log, encoding="utf-8", errors="replace") as out:
        lines = out.read().splitlines()
    print(f"last line: {lines[-1] if lines else ''}")
    return 0 if gate.returncode == 0 else 1


if __name__ == "__main__":
    sys.exit(main())
