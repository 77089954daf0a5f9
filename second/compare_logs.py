#!/usr/bin/env python3
"""Compares the run check's verdicts on copies made at two moments with the second reading (fit.py).

    second/compare_logs.py PROGRAM [COUNT [SEED]]

PROGRAM is crates/torn_logs/out/torn_logs, as ./test builds it. It makes the steps of a scenario, and copies the first device
after so many of them and all else after so many, for each two numbers. The scenarios are the fifteen steps by which a file
comes from one device to another, and COUNT random ones (5 if not given) of 24 steps. The last line is 'N passed, M failed', a
pair of moments each.
"""

import json
import random
import subprocess
import sys
from collections import Counter
from pathlib import Path

import fit
from compare_runs import random_steps, scenario_value
from settled import Making, random_config

FIFTEEN_STEPS = Path(__file__).resolve().parents[1] / "crates/second_try/stdin"
STEPS = 24
# an event shows its bytes, so a scenario with a long file is passed over
LONGEST = 20_000


def random_scenario(making: Making) -> bytes:
    """A scenario of version 2, which may have index resets, with a link and without a long file."""
    while True:
        config = random_config(making)
        steps = random_steps(making, config, STEPS, with_resets=True)
        document = json.dumps(scenario_value(config, steps, version=2)).encode()
        if config.links and len(document) < LONGEST:
            return document


def lines_of(program: str, document: bytes) -> list[str]:
    """What the program writes of the scenario."""
    return subprocess.run([program], input=document, capture_output=True, check=True).stdout.decode().splitlines()


def kind(line: str) -> str:
    """What the program says of a pair of moments, without numbers."""
    verdict = json.loads(line)["verdict"]
    if "fits" in verdict:
        return "fits"
    return "misfit of a device" if len(verdict["misfit"]) == 1 else "misfit of a link"


def main() -> int:
    """Compares, and tells how often which verdict was there; the exit status is 1 where one differs, or one is never there."""
    program, *rest = sys.argv[1:]
    count = int(rest[0]) if rest else 5
    making = Making(random.Random(int(rest[1]) if len(rest) > 1 else 1))
    documents = [FIFTEEN_STEPS.read_bytes(), *(random_scenario(making) for _ in range(count))]
    seen, failed = Counter(), 0
    for number, document in enumerate(documents):
        for place, line in enumerate(lines_of(program, document), 1):
            seen[kind(line)] += 1
            if why := fit.differing(line):
                failed += 1
                print(f"scenario {number}, line {place}: {why}")
    for what in ("fits", "misfit of a device", "misfit of a link"):
        print(f"{seen[what]:9} {what}")
        if not seen[what]:
            failed += 1
            print(f"there is no {what}, so nothing was compared with it")
    print(f"{seen.total() - failed} passed, {failed} failed")
    return int(failed > 0)


if __name__ == "__main__":
    sys.exit(main())
