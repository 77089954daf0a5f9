#!/usr/bin/env python3
"""reference.py: says whether docs/reference/ is what the comments of the crates say, and whether each definition that private
contracts alone name stands in specs/inner/, and no other; and tries on small files what is read of them. The last line is
'N passed, M failed'."""

import sys
import tempfile
from pathlib import Path

from counting import Count

TOOL = Path(__file__).resolve().parents[1] / "tools/reference"
sys.path[1:1] = [str(TOOL), str(TOOL / "generate")]

from definitions import definitions  # noqa: E402
from inner import misplaced  # noqa: E402
from reading import Specs, clause  # noqa: E402
from rust import exported, items, module_comment  # noqa: E402
from write_reference import check, pages  # noqa: E402

SOURCE = """//! What is kept.
//!
//! More of it.
use other::Thing;

/// One of them.
#[derive(Clone)]
pub struct One<T> {
    pub field: T,
}

impl<T: Copy> One<T> {
    /// A new one.
    pub fn new(
        value: T,
        count: u64,
    ) -> Self
        requires { count < 3 }
        ensures value { result.field ≡ value }

        ensures { count
            ≡ count }
    {
        inner(value)
    }

    fn hidden(&self) {}

    /// It is short.
    pub fn short(&self) -> bool { true }
}

impl Keep for One<u8> {
    /// Keeps it.
    fn keep(&self) {
    }

    fn silent(&self) {
    }
}

/// What can be told.
pub trait Tell {
    /// Tells it.
    fn tell(&self) -> u64
        ensures told { result ≡ 1 }
        ensures small { result
            < 3 };

    /// Tells it twice.
    fn twice(&self) -> u64
        ensures { result ≡ 2 };
}

/// Both are the same.
pub fn both_are_one()
    ensures same { one ≡ other }
    ensures other { other ≡ one }
{}

// Not for callers.
fn helper() {}
"""

DEFINITIONS = """-- What holds of them.
-- In two lines.
use Rattle.std.specs.Prelude.{ℕ}

-- it is small
abbrev pub IsSmall : ℕ → Type 0
IsSmall n = n < 3

pub record Pair (n : ℕ) : Type 0 where
  pub first : ℕ

-- not given out
Hidden : Type 0

unfoldable pub twice : ℕ → ℕ
pub mod Inner
"""


LOWER = """-- A number.
use Rattle.std.specs.Prelude.{ℕ}

-- it is small
abbrev pub IsSmall : ℕ → Type 0
IsSmall n = n < most

most : ℕ
most = 3

abbrev pub IsUnused : ℕ → Type 0
IsUnused n = IsSmall n
"""

UPPER = """use Rattle.lower.specs.Number.{IsSmall, IsUnused}
use Rattle.lower.specs.declared.kind.Kind.{Kind}

infix 5 ◌of◌
abbrev pub ◌of◌ : Kind → ℕ → Type 0
kind of n = IsSmall n
"""

CALLER = """ghost use Rattle.upper.specs.Kinds.{◌of◌};
ghost use Rattle.lower.specs.Number.{IsUnused};

pub fn other()
    ensures kept { IsUnused 1 }

pub fn call<'a>(n: u64)
    ensures kept { kind of n }
"""


def reading_list():
    """What a clause rests on: the definitions of each file, and the files of plain types."""
    with tempfile.TemporaryDirectory() as top:
        for crate, module, text in [("lower", "Number", LOWER), ("upper", "Kinds", UPPER)]:
            file = Path(top) / crate / "specs" / f"{module}.antt"
            file.parent.mkdir(parents=True)
            file.write_text(text)
        found, types = Specs(Path(top)).closure(clause(CALLER, "call", "kept"))
    return {place: [name for block in blocks for name in block.names] for place, blocks in found.items()}, types


LENDER = """ghost use Rattle.lender.specs.Open.{IsOpen};
ghost use Rattle.lender.specs.inner.Kept.{IsKept};
ghost use Rattle.lender.specs.inner.Told.{IsTold};

/// It is told.
pub fn call(n: u64)
    requires { IsOpen n }
    ensures told { IsTold n }
{
    helper(n)
}

fn helper(n: u64)
    ensures { IsKept n }
{}

pub struct Lent {
    part: Part,
}

struct Part {
    n: u64,
}

impl Model for Part {
    ghost use Rattle.lender.specs.inner.Seen.{IsSeen};
}

struct Room {
    n: u64,
}

impl Model for Room {
    ghost use Rattle.lender.specs.inner.Held.{IsHeld};
}
"""


def wrong_places():
    """What stands in the wrong place: an inner file that a public contract names, or a type that is in a public one, and a file
    that isn't inner and none names."""
    with tempfile.TemporaryDirectory() as top:
        crate = Path(top) / "lender"
        for name, text in [("src/lib.rt", "mod call;\npub use call::{Lent, call};\n"), ("src/call.rt", LENDER),
                           *((f"specs/{module}.antt", f"abbrev pub Is{module[-4:]} : Type 0\n")
                             for module in ("Open", "Shut", "inner/Held", "inner/Kept", "inner/Seen", "inner/Told"))]:
            file = crate / name
            file.parent.mkdir(parents=True, exist_ok=True)
            file.write_text(text)
        return [place[1] for place in misplaced([crate])]


def found_items():
    """What is read of a source file: names, heads, clauses, and what is public or a law."""
    return [(item.full_name, item.head, item.comment, item.clauses, item.is_law) for item in items(SOURCE) if item.is_public]


WANTED_ITEMS = [
    ("One", "", ["One of them."], [], False),
    ("One::new", "fn new(value: T, count: u64) -> Self", ["A new one."], ["requires", "value", "ensures"], False),
    ("One::short", "fn short(&self) -> bool", ["It is short."], [], False),
    ("One::keep", "fn keep(&self)", ["Keeps it."], [], False),
    ("Tell", "", ["What can be told."], [], False),
    ("Tell::tell", "fn tell(&self) -> u64", ["Tells it."], ["told", "small"], False),
    ("Tell::twice", "fn twice(&self) -> u64", ["Tells it twice."], ["ensures"], False),
    ("both_are_one", "fn both_are_one()", ["Both are the same."], ["same", "other"], True),
]


def main():
    count = Count("reference")

    def expect(what, wanted, told):
        count.says(what, "" if told == wanted else f"{told} is read, and not {wanted}")

    expect("a module's comment", ["What is kept.", "", "More of it."], module_comment(SOURCE))
    expect("the items of a file", WANTED_ITEMS, found_items())
    expect("what a module gives on", ({"Small", "large", "Huge"}, ["laws"]),
           exported("mod inner;\npub mod laws;\npub use inner::{\n    Small, large,\n};\npub use other::Big as Huge;\n"))
    head, found = definitions(DEFINITIONS)
    expect("the head of definitions", ["What holds of them.", "In two lines."], head)
    expect("definitions", [("IsSmall", ["it is small"]), ("Pair", []), ("twice", [])],
           [(one.name, one.comment) for one in found])
    expect("what a clause rests on", ({("upper", "Kinds"): ["◌of◌"], ("lower", "Number"): ["IsSmall", "most"]}, {("lower", "kind")}),
           reading_list())
    expect("what stands in the wrong place", ["Shut", "inner.Seen", "inner.Told"], wrong_places())
    check(count, pages())
    return count.told()


if __name__ == "__main__":
    sys.exit(main())
