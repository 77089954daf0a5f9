#!/usr/bin/env bash
# Measures an index of 4096 names as it is at REVISION (as it stands here, if there is no word): filling it, reading the
# 1000 records after a sequence, and sending the whole of it in batches of 1000 to a view; the best of RUNS runs each.
set -euo pipefail
here=$(cd "$(dirname "$0")/../.." && pwd)
runs=${2:-20}
work=$(mktemp -d)
trap 'rm -rf "$work"' EXIT
top=$here
if [ -n "${1:-}" ]; then
  git clone -q --no-checkout "$here" "$work/clone"
  git -C "$work/clone" checkout -q --detach "$1"
  top=$work/clone
fi
. "$here/tools/bench/program.sh"

start_program index_speed 'bep_record bep_index' bep_facts bep_record bep_map bep_index
cat > src/main.rt <<PROGRAM
// Prints the microseconds of each run and what it did.
#![tactic(auto)]

use bep_index::{Batch, Index, IndexId, MAX_NAMES, MAX_RECORDS, View};
use bep_record::{DeviceId, Entry, Items, Kind, Name, Record, Target, Vector, Version};
use std::alloc::Global;
use std::io;
use std::time::Instant;

fn deletion(alloc: Global, number: usize) -> Option<Record> {
    let name = format!(in alloc; "directory/file-{number}").ok()?;
    let name = Name::read(alloc, name.as_bytes()).ok()?;
    let modified_by = DeviceId::read(1)?;
    let version = Version::of(alloc, &Vector::empty()).ok()?;
    let entry = Entry {
        name,
        kind: Kind::File,
        size: 0,
        modified_s: 1000,
        modified_ns: 0,
        modified_by,
        deleted: true,
        invalid: false,
        no_permissions: true,
        version,
        sequence: 0,
        block_size: 0,
        blocks: Items::new(Vec::new(alloc)),
        target: Target::empty(alloc),
    };
    Record::read(alloc, entry).ok()?
}

fn deletions(alloc: Global) -> Option<Vec<Record>> {
    let mut made = Vec::new(alloc);
    for number in 0..MAX_NAMES {
        made.push(deletion(alloc, number)?).ok()?;
    }
    Some(made)
}

fn filled(alloc: Global, records: Vec<Record>) -> Option<Index> {
    let mut index = Index::new(alloc, IndexId::read(11)?);
    for record in records {
        index.put(record).ok()?;
    }
    Some(index)
}

// The whole index, as many records at once as a batch has at most.
fn taken(alloc: Global, index: &Index) -> Option<Vec<Vec<Record>>> {
    let mut parts = Vec::new(alloc);
    let mut sequence = 0;
    for _part in 0..MAX_NAMES {
        let part = index.after(alloc, sequence, MAX_RECORDS).ok()?;
        match part.as_slice().last() {
            Some(last) => sequence = last.entry().sequence,
            None => return Some(parts),
        }
        parts.push(part).ok()?;
    }
    None
}

fn batched(alloc: Global, parts: Vec<Vec<Record>>) -> Option<Vec<Batch>> {
    let mut batches = Vec::new(alloc);
    for part in parts {
        batches.push(Batch::new(part).ok()?).ok()?;
    }
    Some(batches)
}

fn brought(alloc: Global, batches: Vec<Batch>) -> Option<View> {
    let mut view = View::empty(alloc);
    for batch in batches {
        view.amend(batch).ok()?;
    }
    Some(view)
}

// The rest gives the microseconds of each part, and what the part made.

fn fill(rt: &HostRuntime, alloc: Global) -> Option<(u128, Index)> {
    let records = deletions(alloc)?;
    let start = Instant::now(rt).ok()?;
    let index = filled(alloc, records)?;
    Some((start.elapsed(rt).ok()?.as_micros(), index))
}

fn after(rt: &HostRuntime, alloc: Global, index: &Index) -> Option<(u128, usize)> {
    let start = Instant::now(rt).ok()?;
    let found = index.after(alloc, 2048, MAX_RECORDS).ok()?;
    Some((start.elapsed(rt).ok()?.as_micros(), found.len()))
}

fn take(rt: &HostRuntime, alloc: Global, index: &Index) -> Option<(u128, Vec<Vec<Record>>)> {
    let start = Instant::now(rt).ok()?;
    let parts = taken(alloc, index)?;
    Some((start.elapsed(rt).ok()?.as_micros(), parts))
}

fn batch(rt: &HostRuntime, alloc: Global, parts: Vec<Vec<Record>>) -> Option<(u128, Vec<Batch>)> {
    let start = Instant::now(rt).ok()?;
    let batches = batched(alloc, parts)?;
    Some((start.elapsed(rt).ok()?.as_micros(), batches))
}

fn bring(rt: &HostRuntime, alloc: Global, batches: Vec<Batch>) -> Option<(u128, usize)> {
    let start = Instant::now(rt).ok()?;
    let view = brought(alloc, batches)?;
    Some((start.elapsed(rt).ok()?.as_micros(), view.records().count()))
}

fn send(rt: &HostRuntime, alloc: Global, index: &Index) -> Option<(u128, u128, u128, usize)> {
    let (take, parts) = take(rt, alloc, index)?;
    let (batch, batches) = batch(rt, alloc, parts)?;
    let (bring, names) = bring(rt, alloc, batches)?;
    Some((take, batch, bring, names))
}

fn run(rt: &HostRuntime) -> Option<String> {
    let alloc = rt.alloc();
    let (fill, index) = fill(rt, alloc)?;
    let (after, found) = after(rt, alloc, &index)?;
    let (take, batch, bring, names) = send(rt, alloc, &index)?;
    format!(in alloc; "{fill} {after} {take} {batch} {bring} {found} {names}").ok()
}

fn main(rt: HostRuntime) -> io::Result<()> {
    for _ in 0..$runs {
        match run(&rt) {
            Some(line) => println!(rt; "{line}")?,
            None => println!(rt; "refused")?,
        }
    }
    Ok(())
}
PROGRAM
rt run > "$work/out" 2> "$work/log" || { cat "$work/out" "$work/log"; exit 1; }
if grep -qv ' 1000 4096$' "$work/out"; then
  cat "$work/out"
  exit 1
fi

awk '
  function least(place) { if (NR == 1 || $place < best[place]) best[place] = $place }
  { $8 = $3 + $4 + $5; for (place = 1; place <= 8; place++) least(place) }
  function row(what, place) { printf "%-40s %9d us\n", what, best[place] }
  END {
    row("fill an index of 4096 names", 1)
    row("read 1000 records of it", 2)
    row("send it in batches to a view", 8)
    row("  of that, reading its records", 3)
    row("  of that, seeing that they are batches", 4)
    row("  of that, taking them into the view", 5)
  }' "$work/out"
