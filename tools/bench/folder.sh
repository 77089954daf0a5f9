#!/usr/bin/env bash
# Measures one scan of 4096 unchanged names and one pull of a 16 MiB file, over a store in memory, beside sha256sum on the
# same 16 MiB of random bytes: the best of RUNS runs each.
set -euo pipefail
runs=${1:-5}
mib=16
top=$(cd "$(dirname "$0")/../.." && pwd)
work=$(mktemp -d)
trap 'rm -rf "$work"' EXIT
. "$top/tools/bench/program.sh"

head -c $((mib * 1048576)) /dev/urandom > "$work/bytes"

start_program folder_speed 'bep_record bep_blocks bep_index bep_store bep_folder' \
  bep_facts bep_record bep_blocks bep_choice bep_map bep_store bep_index bep_model bep_machine bep_folder
cat > src/main.rt <<PROGRAM
// Prints the microseconds of each scan of 4096 files, which have the bytes between them, and of each pull of one file
// that has them all.
#![tactic(auto)]

use bep_blocks::blocks;
use bep_folder::{Replica, ScanResult};
use bep_index::{Batch, IndexId};
use bep_record::{
    BASE_BLOCK_SIZE, BlockSize, DeviceId, Entry, FolderKind, FolderName, Items, Kind, Name, Node,
    NodeParts, Record, Target, Version,
};
use bep_store::MemStore;
use std::alloc::Global;
use std::fs;
use std::io;
use std::time::Instant;

fn folder(alloc: Global) -> Option<Replica<MemStore>> {
    let device = DeviceId::read(2)?;
    let id = IndexId::read(12)?;
    let others = Vec::from_slice(alloc, &[DeviceId::read(1)?]).ok()?;
    let docs = FolderName::read(alloc, b"docs").ok()?;
    let store = MemStore::new(alloc);
    Replica::new(alloc, device, docs, FolderKind::SendReceive, id, others, store)
}

fn letter(number: u32) -> u8 {
    b'a' + (number % 16) as u8
}

fn name_of(alloc: Global, number: u32) -> Option<Name> {
    let letters = [letter(number / 256), letter(number / 16), letter(number)];
    Name::read(alloc, &letters).ok()
}

fn node(alloc: Global, bytes: &[u8]) -> Option<Node> {
    let bytes = Vec::from_slice(alloc, bytes).ok()?;
    let made = Node::read(NodeParts {
        kind: Kind::File,
        bytes: Items::new(bytes),
        target: Target::empty(alloc),
        modified_s: 2000,
        modified_ns: 0,
    });
    made.ok()
}

fn scan(alloc: Global, replica: &mut Replica<MemStore>, number: u32) -> Option<()> {
    let name = name_of(alloc, number)?;
    let node = replica.look(&name).ok()?;
    let found = ScanResult::plain(alloc, name, node).ok()?;
    replica.commit(found).ok()?;
    Some(())
}

fn scan_all(alloc: Global, replica: &mut Replica<MemStore>) -> Option<()> {
    for number in 0..4096 {
        scan(alloc, replica, number)?;
    }
    Some(())
}

fn fill(alloc: Global, replica: &mut Replica<MemStore>, bytes: &[u8]) -> Option<()> {
    for (place, piece) in bytes.chunks(4096).enumerate() {
        let name = name_of(alloc, (place % 4096) as u32)?;
        replica.edit(&name, &node(alloc, piece)?).ok()?;
    }
    scan_all(alloc, replica)
}

fn sent(alloc: Global, bytes: &[u8]) -> Option<Batch> {
    let modified_by = DeviceId::read(1)?;
    let version = Version::read(alloc, &[(1, 1)]).ok()??;
    let name = Name::read(alloc, b"whole").ok()?;
    let blocks = blocks(alloc, bytes, BlockSize::base()).ok()?;
    let entry = Entry {
        name,
        kind: Kind::File,
        size: bytes.len() as u64,
        modified_s: 2000,
        modified_ns: 0,
        modified_by,
        deleted: false,
        invalid: false,
        no_permissions: true,
        version,
        sequence: 1,
        block_size: BASE_BLOCK_SIZE,
        blocks,
        target: Target::empty(alloc),
    };
    let record = Record::read(alloc, entry).ok()??;
    Batch::new(Vec::from_array(alloc, [record]).ok()?).ok()
}

fn pull(alloc: Global, replica: &mut Replica<MemStore>, bytes: &[u8]) -> Option<()> {
    let name = Name::read(alloc, b"whole").ok()?;
    replica.start_pull(&name).ok()?;
    for (place, block) in bytes.chunks(131072).enumerate() {
        replica.add_block(&name, place, block).ok()?;
    }
    replica.finish(&name).ok()?;
    Some(())
}

fn measure_scan(rt: HostRuntime, bytes: &[u8]) -> io::Result<bool> {
    let Some(mut replica) = folder(rt.alloc()) else {
        return Ok(false);
    };
    let filled = fill(rt.alloc(), &mut replica, bytes).is_some();
    let start = Instant::now(&rt)?;
    let done = scan_all(rt.alloc(), &mut replica).is_some();
    println!(rt; "scan micros {}", start.elapsed(&rt)?.as_micros())?;
    Ok(filled && done)
}

fn measure_pull(rt: HostRuntime, bytes: &[u8]) -> io::Result<bool> {
    let (Some(mut replica), Some(batch), Some(device)) =
        (folder(rt.alloc()), sent(rt.alloc(), bytes), DeviceId::read(1))
    else {
        return Ok(false);
    };
    let viewed = replica.replace_view(device, batch).is_ok();
    let start = Instant::now(&rt)?;
    let done = pull(rt.alloc(), &mut replica, bytes).is_some();
    println!(rt; "pull micros {}", start.elapsed(&rt)?.as_micros())?;
    Ok(viewed && done)
}

fn main(rt: HostRuntime) -> io::Result<()> {
    let bytes = fs::read(&rt, "$work/bytes")?;
    for _ in 0..$runs {
        let scanned = measure_scan(rt, &bytes)?;
        let pulled = measure_pull(rt, &bytes)?;
        println!(rt; "done {}", scanned && pulled)?;
    }
    Ok(())
}
PROGRAM
rt run > "$work/out" 2> "$work/log" || { cat "$work/out" "$work/log"; exit 1; }
test "$(grep -c '^done true$' "$work/out")" -eq "$runs"

# Whole processes of sha256sum, its reading of the cached file included.
for _ in $(seq "$runs"); do
  begin=$(date +%s%N)
  sha256sum "$work/bytes" > /dev/null
  end=$(date +%s%N)
  echo "sum micros $(((end - begin) / 1000))"
done >> "$work/out"

awk '
  $2 == "micros" && ($1 in best == 0 || $3 < best[$1]) { best[$1] = $3 }
  END {
    printf "scan of 4096 unchanged names  %7.1f ms\n", best["scan"] / 1000
    printf "pull of a 16 MiB file         %7.1f ms\n", best["pull"] / 1000
    printf "sha256sum of the same bytes   %7.1f ms\n", best["sum"] / 1000
  }' "$work/out"
