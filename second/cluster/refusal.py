"""What a step answers: that it moved, or why it was refused."""

from enum import Enum, IntEnum


class Moved(Enum):
    """What a step that wasn't refused answers."""

    Changed = "changed"
    Unchanged = "unchanged"
    Dropped = "dropped"
    LinkLost = "link lost"


class Why(IntEnum):
    """Why a step is refused, with the number that the program prints."""

    CounterFull = 101
    TooManyCounters = 102
    NameBad = 103
    SequenceFull = 121
    IndexFull = 122
    StoreFault = 131
    Unscanned = 141
    NotNeeded = 142
    BlocksMissing = 143
    CopyExists = 145
    PullsFull = 146
    KindForbids = 147
    Stale = 148
    IndexIdOld = 149
    LinkDown = 151
    LinkFull = 152
    EpochFull = 153
    NotBegun = 161
    NotShared = 162
    NothingToDo = 163


class Refused(Exception):
    """A step is refused."""

    def __init__(self, why: Why):
        super().__init__(why)
        self.why = why


def refuse(why: Why, when: bool) -> None:
    """Refuses the step for this cause where the condition holds."""
    if when:
        raise Refused(why)
