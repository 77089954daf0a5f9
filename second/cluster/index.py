"""A device's index of a folder, and its views of the indexes of others."""

from dataclasses import dataclass, field, replace
from typing import Literal

from .record import Record
from .refusal import Why, refuse

MOST_NAMES = 4096
MOST_SEQUENCE = 2**63 - 1
MOST_RECORDS = 1000

Point = tuple[int, int]
Cursor = int | Literal["full"]


@dataclass
class Index:
    """What a device tells of a folder: a record for each name, numbered as they changed."""

    id: int
    max_sequence: int = 0
    records: dict[str, Record] = field(default_factory=dict)

    @property
    def point(self) -> Point:
        """How far the index goes: its id and its greatest sequence."""
        return self.id, self.max_sequence

    def begin_anew(self, index_id: int) -> None:
        """Forgets all, and begins under another id."""
        self.id, self.max_sequence, self.records = index_id, 0, {}

    def check_room(self, name: str) -> None:
        """Refuses where the name can't get a next number."""
        refuse(Why.SequenceFull, when=self.max_sequence == MOST_SEQUENCE)
        refuse(Why.IndexFull, when=name not in self.records and len(self.records) >= MOST_NAMES)

    def put(self, record: Record) -> None:
        """Gives the record's name this record, under the next number."""
        self.check_room(record.name)
        self.max_sequence += 1
        self.records[record.name] = replace(record, sequence=self.max_sequence)

    def after(self, sequence: int) -> tuple[Record, ...]:
        """The first records above a sequence, by rising sequence, as many as one message takes."""
        above = [record for record in self.records.values() if record.sequence > sequence]
        return tuple(sorted(above, key=lambda record: record.sequence)[:MOST_RECORDS])

    def plan(self, announced: Point) -> Cursor:
        """From where a receiver is sent records, who announces that it has this point of the index."""
        index_id, sequence = announced
        return sequence if index_id == self.id and 1 <= sequence <= self.max_sequence else "full"


@dataclass
class View:
    """What a device knows of another one's index: at first nothing, at point (0, 0)."""

    id: int = 0
    sequence: int = 0
    records: dict[str, Record] = field(default_factory=dict)

    @property
    def point(self) -> Point:
        """How far of which index this goes."""
        return self.id, self.sequence

    def clear(self, index_id: int) -> None:
        """Forgets all, and begins anew with another index."""
        self.id, self.sequence, self.records = index_id, 0, {}

    def replace(self, records: tuple[Record, ...]) -> None:
        """Takes these records for all that is there."""
        refuse(Why.IndexFull, when=len({record.name for record in records}) > MOST_NAMES)
        self.records = {record.name: record for record in records}
        self.sequence = records[-1].sequence if records else 0

    def amend(self, records: tuple[Record, ...]) -> None:
        """Takes these records over, and leaves other names alone."""
        amended = self.records | {record.name: record for record in records}
        refuse(Why.IndexFull, when=len(amended) > MOST_NAMES)
        self.records = amended
        self.sequence = records[-1].sequence if records else self.sequence
