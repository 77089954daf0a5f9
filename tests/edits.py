"""The wrong bodies in wrong/: what each changes, whether it still fits, and which of them have their turn.

An edit has a line 'file: PATH' of its crate, and pairs of lines 'old: TEXT' and 'new: TEXT'; the old text stands once in
that file. Where several lines 'old:' follow one another, they are the lines of one text.
"""

from pathlib import Path

HERE = Path(__file__).resolve().parent
TOP = HERE.parent
# A turn ends where it has so many edits, or would have more than these.
LEAST_OF_A_TURN, MOST_OF_A_TURN = 7, 11
# What the gate is lent has a name of its own, which .gitignore has too.
LENT = "turn."


def crates():
    """The crates that have edits here, in the order of crates.txt."""
    lines = (TOP / "crates.txt").read_text().splitlines()
    names = [line.partition(":")[0] for line in lines if ":" in line and not line.startswith("#")]
    strangers = sorted(folder.name for folder in (HERE / "wrong").iterdir() if folder.name not in names)
    return [name for name in names if (HERE / "wrong" / name).is_dir()] + strangers


def edits_of(crate):
    """The edits of a crate."""
    return sorted((HERE / "wrong" / crate).glob("*.edit"))


def name_of(edit):
    """An edit's name, with its crate's."""
    return f"{edit.parent.name}/{edit.stem}"


def changes(edit):
    """What an edit changes: each file of its crate, with the old text and the new one."""
    file, old = "", []
    for line in edit.read_text().splitlines():
        word, _, text = line.partition(": ")
        if word == "file":
            file = text
        elif word == "old":
            old.append(text)
        elif line.startswith("new:"):
            yield file, "\n".join(old), line[len("new:"):].removeprefix(" ")
            old = []


def applied(edit):
    """The texts of the files that an edit changes, as it changes them; what doesn't fit is a ValueError."""
    texts = {}
    for file, old, new in changes(edit):
        path = TOP / "crates" / edit.parent.name / file
        if not path.is_file():
            raise ValueError(f"there is no file {path.relative_to(TOP)}")
        text = texts.get(file) or path.read_text()
        if text.count(old) != 1:
            raise ValueError(f"what it changes stands {text.count(old)} times in {path.relative_to(TOP)}, and not once")
        texts[file] = text.replace(old, new)
    if not texts:
        raise ValueError("it changes nothing")
    return texts


def pieces_of(crate):
    """The edits of a crate, in as few lists of about one length as a turn has room for."""
    edits = edits_of(crate)
    pieces = -(-len(edits) // MOST_OF_A_TURN)
    return [edits[at::pieces] for at in range(pieces)]


def turns():
    """The turns, in which all edits are tried one time: lists of edits.

    A crate's first edit costs a check of the crate, so a turn has whole crates as far as it has room for them.
    """
    made, turn = [], []
    for piece in [piece for crate in crates() for piece in pieces_of(crate)]:
        if len(turn) >= LEAST_OF_A_TURN or len(turn) + len(piece) > MOST_OF_A_TURN:
            made.append(turn)
            turn = []
        turn = turn + piece
    return made + [turn]


def place_of(edit):
    """Where an edit stands that the gate is lent: among those of its crate."""
    return TOP / "crates" / edit.parent.name / "must-fail" / f"{LENT}{edit.name}"


def lent():
    """The edits that the gate is lent."""
    return [edit for crate in crates() for edit in edits_of(crate) if place_of(edit).exists()]
