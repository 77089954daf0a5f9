#!/usr/bin/env python3
"""pages.py: says whether the pages that are written by hand fit one another and the code: each link leads to a file and a
heading, and each path in code is there; crates.txt says what each crate is about; the functions on developing.md's two ways
are there, and its counts are theirs; trust.md is short, and has no name or test that isn't there; each row of SECURITY.md
names tests that are there; documents.md has the numbers of refusals, reasons.md the reasons, and the schemas describe their
members (documented.py); README.md is one screen, of at most 500 words, and all of them have at
most 30,000. The last line is 'N passed, M failed'."""

import re
import subprocess
import sys
from itertools import groupby
from pathlib import Path

import documented
from counting import Count

TOP = Path(__file__).resolve().parents[1]
sys.path[1:1] = [str(TOP / "tools/reference"), str(TOP / "tools/reference/generate")]

from write_reference import pages  # noqa: E402

GENERATED = TOP / "docs/reference"
PAGES = sorted(page for page in TOP.rglob("*.md") if GENERATED not in page.parents)
LINK = re.compile(r"\]\(([^)\s]+)\)")
CODE = re.compile(r"^```.*?^```|`[^`\n]*`", re.MULTILINE | re.DOTALL)
MOST_OF_README = 500
MOST_OF_TRUST = 4000
MOST_OF_ALL = 30000
WRITTEN = re.compile(r"<!-- \S+ writes from here -->.*?<!-- to here -->", re.DOTALL)
PLACE = re.compile(r"(?<![\w./~-])(\$PWD/)?([a-z.][\w.-]*(?:/[\w.-]+)*)(?![\w/*<{.\[$-])")
STEP = re.compile(r"`([\w/]+\.rt):(\w+)`")


def untested(page):
    """The links of a page to a test in Rust by its name, each with whether the file lacks it."""
    for name, path in re.findall(r"\[(\w+)\]\((\S+\.rt)\)", page.read_text()):
        text = (page.parent / path).read_text() if (page.parent / path).exists() else ""
        yield name, re.search(rf"#\[test\]\s*fn {name}\b", text) is None


def untried(page):
    """What is wrong with each row of the page on security: it names no test, or one that isn't there."""
    texts = [path.read_text() for path in [*TOP.glob("auditor/src/syncthing-audit/**/*_test.go"), *TOP.glob("auditor/test/*.py")]]
    for row in re.findall(r"^\| (.*) \|$", page.read_text(), re.MULTILINE)[2:]:
        subject, tests = row.partition(" | ")[0], row.rpartition("|")[2]
        names = re.findall(r"`((?:Test|Fuzz|test_)\w+)`", tests)
        lacking = [name for name in names if not any(re.search(rf"\b(?:func|def) {name}\(", text) for text in texts)]
        none = "" if names or re.search(r"`[\w/.-]+`|\]\(", tests) else "no test"
        yield subject, none or ", ".join(f"{name} isn't there" for name in lacking)


def anchors(page):
    """The names by which a page's headings are linked."""
    titles = re.findall(r"^#+ (.*)$", re.sub(r"^```.*?^```", "", page.read_text(), flags=re.MULTILINE | re.DOTALL), re.MULTILINE)
    return {re.sub(r"[^\w\- ]", "", title.lower()).replace(" ", "-") for title in titles}


def broken(page, link):
    """Why a link leads nowhere, if so; what lies outside the repository isn't looked at."""
    if re.match(r"[a-z]+:", link):
        return ""
    path, _, anchor = link.partition("#")
    target = (page.parent / path).resolve() if path else page
    if not target.exists():
        return "there is no such file"
    return "" if not anchor or anchor in anchors(target) else "there is no such heading"


def lost(page):
    """The paths below $PWD or a folder of the repository that a page's code names, and that aren't there. A path with a word in
    capitals stands for others. What a run makes, below out/, is in no clone."""
    folders = {path.name for path in TOP.iterdir() if path.is_dir() and path.name not in (".git", "out")}
    for code in CODE.findall(page.read_text()):
        for below, path in PLACE.findall(code):
            if not below and ("/" not in path or path.partition("/")[0] not in folders):
                continue
            if not re.search(r"\b[A-Z]+\b", path) and not (TOP / path).exists():
                yield path


def ways(text):
    """The ways: the title of each, its steps as crate, file and function, and what the page counts."""
    for part in text.split("\n### ")[1:]:
        items = re.findall(r"^- (\w+): (`.*)$", part, re.MULTILINE)
        steps = [(crate, *step) for crate, text in items for step in STEP.findall(text)]
        yield part.splitlines()[0], steps, re.search(r"^(\d+) files in (\d+) crates, (\d+) hops", part, re.MULTILINE)


def counted(steps):
    """How many files and crates a way has, and how often it goes from one crate to another."""
    crates = [crate for crate, _ in groupby(step[0] for step in steps)]
    return str(len({step[:2] for step in steps})), str(len(set(crates))), str(len(crates) - 1)


def missing(crate, file, function):
    """What isn't there of a step, if something isn't."""
    path = TOP / "crates" / crate / "src" / file
    if not path.exists():
        return "there is no such file"
    return "" if re.search(rf"\bfn {function}\b", path.read_text()) else "the file has no such function"


def names(text):
    """The names in a text, each without its type."""
    return {name.rpartition("::")[2] for name in re.findall(r"`(?:fn )?([A-Za-z_][\w:]*)\b[^`]*`", text)}


def words_by_hand(page):
    """How many words a page has, but for what a script writes into it. A mark alone, such as the line between two cells, is none."""
    return len([word for word in WRITTEN.sub("", page.read_text()).split() if re.search(r"\w", word)])


def check_trust(count, crates):
    """Counts which names of trust.md are known, and whether it is short."""
    told = set(re.findall(r"`(?:\w+::)?(\w+)`", (TOP / "docs/trust.md").read_text()))
    words = len((TOP / "docs/trust.md").read_text().split())
    count.says("docs/trust.md: length", "" if words <= MOST_OF_TRUST else f"{words} words are more than {MOST_OF_TRUST}")
    known = set(crates).union(*(names(text) for text in pages().values()))
    for name in sorted(told):
        count.says(f"docs/trust.md: {name}", "" if name in known else "the reference has no such name")


def subjects(text):
    """The crates of crates.txt, each with its heading and the line that says what it is about."""
    found, heading, about = {}, "", ""
    for line in text.splitlines():
        if line.startswith("# == "):
            heading, about = line.removeprefix("# == "), ""
        elif line.startswith("# "):
            about = line.removeprefix("# ")
        elif ":" in line:
            found[line.partition(":")[0]] = (heading, about)
            about = ""
    return found


def main():
    count = Count("pages")
    for page in PAGES:
        for link in sorted(set(LINK.findall(CODE.sub("", page.read_text())))):
            count.says(f"{page.relative_to(TOP)}: {link}", broken(page, link))
        count.says(f"{page.relative_to(TOP)}: paths", ", ".join(f"{path} isn't there" for path in sorted(set(lost(page)))))
    words = len((TOP / "README.md").read_text().split())
    count.says("README.md: length", "" if words <= MOST_OF_README else f"{words} words are more than {MOST_OF_README}")
    words = sum(map(words_by_hand, PAGES))
    count.says("all pages: length", "" if words <= MOST_OF_ALL else f"{words} words are more than {MOST_OF_ALL}")
    developing = (TOP / "docs/developing.md").read_text()
    crates = subjects((TOP / "crates.txt").read_text())
    for crate, (heading, about) in sorted(crates.items()):
        count.says(f"crates.txt: {crate}", "" if heading and about else "it has no heading, or nothing says what it is about")
    check_trust(count, crates)
    is_current = subprocess.run([TOP / "tools/bench/table.py", "--check"]).returncode == 0
    count.says("tools/bench/README.md: table", "" if is_current else "it isn't that of results.csv: run tools/bench/table.py")
    for name, lacks in untested(TOP / "docs/trust.md"):
        count.says(f"docs/trust.md: {name}", "the file has no such test" if lacks else "")
    for subject, why in untried(TOP / "SECURITY.md"):
        count.says(f"SECURITY.md: {subject}", why)
    documented.check(count, TOP)
    found = [way for way in ways(developing) if way[1]]
    count.says("docs/developing.md: ways", "" if len(found) == 2 else f"{len(found)} are read")
    for title, steps, told in found:
        for step in sorted(set(steps)):
            count.says(f"docs/developing.md: {step}", missing(*step))
        right = counted(steps)
        count.says(f"docs/developing.md: {title}", "" if told and told.groups() == right else
                   f"it has {right[0]} files in {right[1]} crates, {right[2]} hops")
    return count.told()


if __name__ == "__main__":
    sys.exit(main())
