#!/usr/bin/env python3
"""wrong.py: tries the wrong bodies in wrong/, or has the gate try some of them. The prover must refuse each.

    wrong.py [CRATE..]         tries those of these crates, or all, on a clone of the repository as it is committed
    wrong.py --fit             says whether each still fits its file, in which the text that it changes must stand once
    wrong.py --lend [--every]  puts those whose turn it is, or all, among the edits that the gate tries
    wrong.py --take-back       takes out again what was put there
    wrong.py --judge LOG       says whether the gate refused each that is there, by its output, and whether all fit

The number of commits chooses the turn, so all have had theirs after about as many runs as there are turns. The last line
of what tries or judges is 'N passed, M failed'. An edit that the gate refused is counted by the gate alone.
"""

import re
import shutil
import subprocess
import sys
import tempfile
from pathlib import Path

from commits import commits, git
from counting import Count
from edits import HERE, LENT, TOP, applied, crates, edits_of, lent, name_of, place_of, turns


def misfit(edit):
    """Why an edit doesn't fit its crate as it stands, if it doesn't."""
    try:
        applied(edit)
        return ""
    except ValueError as error:
        return str(error)


def fit(count, names):
    """Counts which edits of these crates fit."""
    for crate in names:
        for edit in edits_of(crate):
            count.says(name_of(edit), misfit(edit))


def refused(log):
    """The names of the edits that a run of the prover refused."""
    return set(re.findall(r"^(?:rt: )?must-fail (\S+)\.edit: refused, as it must be", log, re.M))


def hindrances(names):
    """Why the edits of these crates can't be tried on a clone; nothing where they can."""
    unknown = sorted(set(names) - set(crates()))
    if unknown:
        return [f"there are no edits of {' '.join(unknown)}"]
    if git("status", "--porcelain", "--", "HANDLES", "crates.txt", "crates"):
        return ["crates/ has changes that aren't committed, and edits are tried on a clone: commit them first"]
    misfits = ((edit, misfit(edit)) for crate in names for edit in edits_of(crate))
    return [f"{name_of(edit)}: {why}" for edit, why in misfits if why]


def attempt(names):
    """Tries the edits of these crates on a clone."""
    count = Count("wrong")
    for why in hindrances(names):
        count.fails(why)
    if count.failed:
        return count.told()
    with tempfile.TemporaryDirectory() as room:
        clone = Path(room) / "clone"
        subprocess.run(["git", "clone", "-q", TOP, clone], check=True)
        for crate in names:
            to = clone / "crates" / crate / "must-fail"
            shutil.rmtree(to, ignore_errors=True)
            shutil.copytree(HERE / "wrong" / crate, to)
        ran = subprocess.run(["rt", "must-fail", *names], cwd=clone, stdout=subprocess.PIPE, text=True)
    print(ran.stdout, end="")
    done = refused(ran.stdout)
    for crate in names:
        for edit in edits_of(crate):
            count.says(name_of(edit), "" if name_of(edit) in done else "it wasn't refused")
    return count.told()


def lend(every):
    """Puts edits among those that the gate tries, and says which."""
    take_back()
    made = turns()
    number = commits() % len(made)
    chosen = [edit for turn in made for edit in turn] if every else made[number]
    for edit in chosen:
        place_of(edit).parent.mkdir(exist_ok=True)
        shutil.copyfile(edit, place_of(edit))
    which = "all" if every else f"turn {number + 1} of {len(made)}"
    print(f"wrong: the gate also tries {len(chosen)} of the edits in tests/wrong ({which}):")
    for edit in chosen:
        print(f"  {name_of(edit)}")


def take_back():
    """Takes out what the gate was lent, now or by a run that was killed."""
    for edit in (TOP / "crates").glob(f"*/must-fail/{LENT}*.edit"):
        edit.unlink()
        if not any(edit.parent.iterdir()):
            edit.parent.rmdir()


def judge(log):
    """Counts which edits fit, and as failures those that the gate was lent and didn't refuse."""
    count = Count("wrong")
    fit(count, crates())
    done = refused(Path(log).read_text(errors="replace"))
    if not lent():
        count.fails("the gate was lent no edit")
    for edit in lent():
        if f"{edit.parent.name}/{place_of(edit).stem}" not in done:
            count.fails(f"{name_of(edit)}: the gate didn't refuse it")
    return count.told()


def main(words):
    if words == ["--fit"]:
        count = Count("wrong")
        fit(count, crates())
        return count.told()
    if words in (["--lend"], ["--lend", "--every"]):
        return lend("--every" in words)
    if words == ["--take-back"]:
        return take_back()
    if len(words) == 2 and words[0] == "--judge":
        return judge(words[1])
    if any(word.startswith("-") for word in words):
        print(__doc__, file=sys.stderr)
        return 2
    return attempt(words or crates())


if __name__ == "__main__":
    sys.exit(main(sys.argv[1:]))
