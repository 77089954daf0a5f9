#!/usr/bin/env python3
"""saying.py [REVISION]: counts the lines of Go, without tests, of the packages that decide what an answer of syncthing-audit
says, and say it, beside those of a revision: by default the last one that foretold by sentences for each case. Lines that say
what the answers of then didn't say are counted apart. forecast/ is the model, which no answer of then had."""

import subprocess
import sys
from pathlib import Path

TOP = Path(__file__).resolve().parents[2]
SOURCES = "auditor/src/syncthing-audit"
# The revision before the model came, and where its sources stood. A shallow clone doesn't have it: then the number is the one that was counted.
BEFORE, SOURCES_THEN, COUNTED_THEN = "e70e441a^", "export/src/syncthing-audit", {"choice": 164, "summary": 4915}
PACKAGES = ("summary", "outlook", "print", "advice", "choice", "lists")
# Files of other packages that have what these had.
MOVED = ("finding/state.go",)
# What the answers of then didn't say, and what says it.
NEW = {
    "what becomes of each name, and the numbered steps": ("outlook/", "advice/", "print/choices.go", "print/converging.go", "print/fates.go", "print/plans.go",
                                                          "print/text.go", "summary/foretold.go"),
    "what a history knows": ("summary/since.go",),
    "devices that are asked over the wire": ("summary/wire.go",),
    "what Syncthing itself says": ("summary/asked.go",),
    "whether a folder's records lead to one end": ("summary/converging.go",),
}


def lines_now():
    """The lines of each file."""
    paths = [path for package in PACKAGES for path in sorted((TOP / SOURCES / package).glob("*.go")) if not path.name.endswith("_test.go")]
    return {str(path.relative_to(TOP / SOURCES)): len(path.read_text().splitlines()) for path in paths + [TOP / SOURCES / path for path in MOVED]}


def lines_then(revision):
    """The lines of each package at a revision, as far as this clone has it."""
    def git(*words):
        return subprocess.run(["git", *words], cwd=TOP, capture_output=True, text=True)
    made = {}
    for sources in (SOURCES_THEN, SOURCES):
        for path in git("ls-tree", "-r", "--name-only", revision, "--", *(f"{sources}/{package}" for package in PACKAGES)).stdout.split():
            if path.endswith(".go") and not path.endswith("_test.go"):
                package = path.removeprefix(sources + "/").partition("/")[0]
                made[package] = made.get(package, 0) + len(git("show", f"{revision}:{path}").stdout.splitlines())
    return made or COUNTED_THEN


def main():
    now, then = lines_now(), lines_then(sys.argv[1] if len(sys.argv) > 1 else BEFORE)
    for package in PACKAGES + MOVED:
        print(f"{package}: {then.get(package, 0)} lines then, {sum(lines for path, lines in now.items() if (path + '/').startswith(package + '/'))} now")
    before, whole, new = sum(then.values()), sum(now.values()), 0
    for what, where in NEW.items():
        lines = sum(count for path, count in now.items() if path.startswith(where))
        new += lines
        print(f"not said then: {what}: {lines}")
    print(f"all: {before} lines then, {whole} now ({whole / before:.0%}); a third fewer are {before * 2 // 3}")
    print(f"of what was said then: {whole - new} now ({(whole - new) / before:.0%})")


if __name__ == "__main__":
    main()
