#!/usr/bin/env bash
# Measures what a log costs: actions of devices with logs beside the same of devices without, over stores in memory, with
# 4096 names (the best of RUNS runs each); and the seconds and memory of 65536 events on one device with 4096 names.
set -euo pipefail
runs=${1:-5}
top=$(cd "$(dirname "$0")/../.." && pwd)
work=$(mktemp -d)
trap 'rm -rf "$work"' EXIT
. "$top/tools/bench/measure.sh"
. "$top/tools/bench/program.sh"

start_program log_speed 'bep_record bep_map bep_index bep_machine bep_store bep_folder bep_links bep_peer bep_log' \
  bep_facts bep_record bep_blocks bep_choice bep_map bep_store bep_index bep_model bep_config bep_machine bep_fit \
  bep_folder bep_links bep_peer bep_log
cat > src/main.rt <<PROGRAM
// Without a word: prints the microseconds of each kind of action of $runs runs, by devices without logs and with logs in
// turn. With the word 'bare' or 'logged': one device makes 65536 actions, without a log or with one.
#![tactic(auto)]

mod bare;
mod devices;
mod files;
mod logged;

use crate::bare::Bare;
use crate::devices::{Devices, run, steps};
use crate::logged::Logged;
use std::env;
use std::io;

fn show<D: Devices>(rt: HostRuntime, word: &str, devices: Option<D>) -> io::Result<()> {
    let Some(mut devices) = devices else {
        return Ok(());
    };
    match run(&rt, &mut devices) {
        Some(spent) => println!(rt; "{word} {spent}"),
        None => println!(rt; "{word} refused"),
    }
}

fn make<D: Devices>(rt: HostRuntime, devices: Option<D>) -> io::Result<()> {
    let Some(mut devices) = devices else {
        return Ok(());
    };
    let made = steps(rt.alloc(), &mut devices);
    println!(rt; "made {}", made.unwrap_or(0))
}

fn main(rt: HostRuntime) -> io::Result<()> {
    let mut words = env::args(&rt)?;
    let _program = words.next();
    match words.next() {
        None => {
            for _ in 0..$runs {
                show(rt, "bare", Bare::new(rt.alloc()))?;
                show(rt, "logged", Logged::new(rt.alloc()))?;
            }
            Ok(())
        }
        Some(word) if word.as_str() == "bare" => make(rt, Bare::new(rt.alloc())),
        Some(_) => make(rt, Logged::new(rt.alloc())),
    }
}
PROGRAM
cat > src/files.rt <<'PROGRAM'
// Names, small files, and devices that have none yet.
use bep_folder::Replica;
use bep_index::IndexId;
use bep_links::Link;
use bep_map::FolderMap;
use bep_peer::Peer;
use bep_record::{DeviceId, FolderKind, FolderName, Items, Kind, Name, Node, NodeParts, Target};
use bep_store::MemStore;
use std::alloc::Global;

pub const NAMES: u32 = 4096;

pub fn docs(alloc: Global) -> Option<FolderName> {
    FolderName::read(alloc, b"docs").ok()
}

fn letter(number: u32) -> u8 {
    b'a' + (number % 16) as u8
}

pub fn names(alloc: Global) -> Option<Vec<Name>> {
    let mut names = Vec::new(alloc);
    for number in 0..NAMES {
        let letters = [letter(number / 256), letter(number / 16), letter(number)];
        names.push(Name::read(alloc, &letters).ok()?).ok()?;
    }
    Some(names)
}

// A file of 1000 bytes, at this second.
pub fn file(alloc: Global, second: u32) -> Option<Node> {
    let mut bytes = Vec::new(alloc);
    for place in 0..1000u32 {
        bytes.push(((place + second % 256) % 256) as u8).ok()?;
    }
    let made = Node::read(NodeParts {
        kind: Kind::File,
        bytes: Items::new(bytes),
        target: Target::empty(alloc),
        modified_s: second as i64,
        modified_ns: 0,
    });
    made.ok()
}

fn only(alloc: Global, device: u64) -> Option<Vec<DeviceId>> {
    let mut devices = Vec::new(alloc);
    devices.push(DeviceId::read(device)?).ok()?;
    Some(devices)
}

fn replica(alloc: Global, device: u64, other: u64) -> Option<Replica<MemStore>> {
    let store = MemStore::new(alloc);
    let number = DeviceId::read(device)?;
    let id = IndexId::read(device)?;
    let others = only(alloc, other)?;
    let docs = docs(alloc)?;
    Replica::new(alloc, number, docs, FolderKind::SendReceive, id, others, store)
}

pub fn peer(alloc: Global, device: u64, other: u64) -> Option<Peer<MemStore>> {
    let mut folders = FolderMap::new(alloc);
    folders.insert(docs(alloc)?, replica(alloc, device, other)?).ok()?;
    let linked = only(alloc, other)?;
    Peer::new(alloc, DeviceId::read(device)?, folders, linked)
}

pub fn link(alloc: Global) -> Option<Link> {
    Link::new(alloc, DeviceId::read(1)?, DeviceId::read(2)?)
}
PROGRAM
cat > src/devices.rt <<'PROGRAM'
// What is measured: the first device puts and records files, and the second pulls them.
use crate::files::{NAMES, file, names};
use bep_folder::ScanResult;
use bep_record::{Name, Node};
use std::alloc::Global;
use std::time::Instant;

// Two devices and their link. Each call answers whether it was done.
pub trait Devices: Drop {
    fn alloc(&self) -> Global;
    fn edit(&mut self, name: &Name, node: &Node) -> Option<()>;
    fn look(&mut self, name: &Name) -> Option<Option<Node>>;
    fn commit(&mut self, scan: ScanResult) -> Option<()>;
    // the link comes up, and both begin a session
    fn meet(&mut self) -> Option<()>;
    // the first announces at most 1000 records, and the second takes them
    fn announce(&mut self) -> Option<()>;
    fn pull(&mut self, name: &Name) -> Option<()>;
    // the second asks for a block, the first answers, and the second takes the answer
    fn fetch(&mut self, name: &Name) -> Option<()>;
    fn finish(&mut self, name: &Name) -> Option<()>;
}

fn edit_all<D: Devices>(devices: &mut D, names: &[Name], node: &Node) -> Option<()> {
    for name in names {
        devices.edit(name, node)?;
    }
    Some(())
}

fn look_at<D: Devices>(devices: &mut D, name: &Name) -> Option<ScanResult> {
    let alloc = devices.alloc();
    let node = devices.look(name)?;
    ScanResult::plain(alloc, name.copy(alloc).ok()?, node).ok()
}

fn look_at_all<D: Devices>(devices: &mut D, names: &[Name]) -> Option<Vec<ScanResult>> {
    let mut found = Vec::new(devices.alloc());
    for name in names {
        found.push(look_at(devices, name)?).ok()?;
    }
    Some(found)
}

fn commit_all<D: Devices>(devices: &mut D, found: Vec<ScanResult>) -> Option<()> {
    for scan in found {
        devices.commit(scan)?;
    }
    Some(())
}

fn scan_all<D: Devices>(devices: &mut D, names: &[Name]) -> Option<()> {
    for name in names {
        let scan = look_at(devices, name)?;
        devices.commit(scan)?;
    }
    Some(())
}

fn announce_all<D: Devices>(devices: &mut D) -> Option<()> {
    for _batch in 0..5 {
        devices.announce()?;
    }
    Some(())
}

fn pull_all<D: Devices>(devices: &mut D, names: &[Name]) -> Option<()> {
    for name in names {
        devices.pull(name)?;
    }
    Some(())
}

fn fetch_all<D: Devices>(devices: &mut D, names: &[Name]) -> Option<()> {
    for name in names {
        devices.fetch(name)?;
    }
    Some(())
}

fn finish_all<D: Devices>(devices: &mut D, names: &[Name]) -> Option<()> {
    for name in names {
        devices.finish(name)?;
    }
    Some(())
}

fn micros(rt: &HostRuntime, start: &Instant) -> Option<u64> {
    let micros = start.elapsed(rt).ok()?.as_micros();
    Some(u64::try_from(micros).unwrap_or(u64::MAX))
}

// The microseconds of edits, of records of new files, of scans of unchanged files, and of announcements.
fn put<D: Devices>(rt: &HostRuntime, devices: &mut D, names: &[Name]) -> Option<[u64; 4]> {
    let node = file(devices.alloc(), 1000)?;
    let start = Instant::now(rt).ok()?;
    edit_all(devices, names, &node)?;
    let edited = micros(rt, &start)?;
    let found = look_at_all(devices, names)?;
    let start = Instant::now(rt).ok()?;
    commit_all(devices, found)?;
    let committed = micros(rt, &start)?;
    let start = Instant::now(rt).ok()?;
    scan_all(devices, names)?;
    let scanned = micros(rt, &start)?;
    devices.meet()?;
    let start = Instant::now(rt).ok()?;
    announce_all(devices)?;
    Some([edited, committed, scanned, micros(rt, &start)?])
}

// The microseconds of pulls, of fetched blocks, and of ends of pulls, 64 at a time.
fn take<D: Devices>(rt: &HostRuntime, devices: &mut D, names: &[Name]) -> Option<[u64; 3]> {
    let (mut pulls, mut fetches, mut ends) = (0u64, 0u64, 0u64);
    for part in names.chunks(64) {
        let start = Instant::now(rt).ok()?;
        pull_all(devices, part)?;
        pulls = pulls.saturating_add(micros(rt, &start)?);
        let start = Instant::now(rt).ok()?;
        fetch_all(devices, part)?;
        fetches = fetches.saturating_add(micros(rt, &start)?);
        let start = Instant::now(rt).ok()?;
        finish_all(devices, part)?;
        ends = ends.saturating_add(micros(rt, &start)?);
    }
    Some([pulls, fetches, ends])
}

pub fn run<D: Devices>(rt: &HostRuntime, devices: &mut D) -> Option<String> {
    let names = names(devices.alloc())?;
    let [edit, commit, scan, announce] = put(rt, devices, &names)?;
    let [pull, fetch, finish] = take(rt, devices, &names)?;
    format!(in devices.alloc(); "{edit} {commit} {scan} {announce} {pull} {fetch} {finish}").ok()
}

// The first device edits and records each name, eight times: 65536 actions.
pub fn steps<D: Devices>(alloc: Global, devices: &mut D) -> Option<u32> {
    let names = names(alloc)?;
    let mut made = 0u32;
    for round in 0..8u32 {
        let node = file(alloc, round)?;
        edit_all(devices, &names, &node)?;
        scan_all(devices, &names)?;
        made = made.saturating_add(2 * NAMES);
    }
    Some(made)
}
PROGRAM
cat > src/bare.rt <<'PROGRAM'
// Devices without logs.
use crate::devices::Devices;
use crate::files::{docs, link, peer};
use bep_folder::ScanResult;
use bep_links::Link;
use bep_peer::Peer;
use bep_record::{FolderName, Name, Node};
use bep_store::MemStore;
use std::alloc::Global;

#[derive(Drop)]
pub struct Bare {
    alloc: Global,
    docs: FolderName,
    first: Peer<MemStore>,
    second: Peer<MemStore>,
    link: Link,
}

impl Bare {
    pub fn new(alloc: Global) -> Option<Self> {
        Some(Bare {
            alloc,
            docs: docs(alloc)?,
            first: peer(alloc, 1, 2)?,
            second: peer(alloc, 2, 1)?,
            link: link(alloc)?,
        })
    }
}

impl Devices for Bare {
    fn alloc(&self) -> Global {
        self.alloc
    }

    fn edit(&mut self, name: &Name, node: &Node) -> Option<()> {
        self.first.edit(&self.docs, name, node).ok()?;
        Some(())
    }

    fn look(&mut self, name: &Name) -> Option<Option<Node>> {
        self.first.look(&self.docs, name).ok()
    }

    fn commit(&mut self, scan: ScanResult) -> Option<()> {
        self.first.scan_commit(&self.docs, scan).ok()?;
        Some(())
    }

    fn meet(&mut self) -> Option<()> {
        self.link.connect().ok()?;
        self.first.begin(&mut self.link).ok()?;
        self.second.begin(&mut self.link).ok()?;
        self.second.deliver(&mut self.link).ok()?;
        self.first.deliver(&mut self.link).ok()?;
        Some(())
    }

    fn announce(&mut self) -> Option<()> {
        self.first.announce(&mut self.link, &self.docs).ok()?;
        self.second.deliver(&mut self.link).ok()?;
        Some(())
    }

    fn pull(&mut self, name: &Name) -> Option<()> {
        self.second.pull(&self.docs, name).ok()?;
        Some(())
    }

    fn fetch(&mut self, name: &Name) -> Option<()> {
        self.second.ask(&mut self.link, &self.docs, name).ok()?;
        self.first.deliver(&mut self.link).ok()?;
        self.second.deliver(&mut self.link).ok()?;
        Some(())
    }

    fn finish(&mut self, name: &Name) -> Option<()> {
        self.second.finish(&self.docs, name).ok()?;
        Some(())
    }
}
PROGRAM
cat > src/logged.rt <<'PROGRAM'
// The same devices with logs.
use crate::devices::Devices;
use crate::files::{docs, link, peer};
use bep_folder::ScanResult;
use bep_log::{LoggedLink, LoggedPeer};
use bep_record::{FolderName, Name, Node};
use bep_store::MemStore;
use std::alloc::Global;

#[derive(Drop)]
pub struct Logged {
    alloc: Global,
    docs: FolderName,
    first: LoggedPeer<MemStore>,
    second: LoggedPeer<MemStore>,
    link: LoggedLink,
    ticket: u64,
}

impl Logged {
    pub fn new(alloc: Global) -> Option<Self> {
        Some(Logged {
            alloc,
            docs: docs(alloc)?,
            first: LoggedPeer::new(alloc, peer(alloc, 1, 2)?).ok()?,
            second: LoggedPeer::new(alloc, peer(alloc, 2, 1)?).ok()?,
            link: LoggedLink::new(alloc, link(alloc)?).ok()?,
            ticket: 0,
        })
    }

    fn next(&mut self) -> u64 {
        self.ticket = self.ticket.saturating_add(1);
        self.ticket
    }
}

impl Devices for Logged {
    fn alloc(&self) -> Global {
        self.alloc
    }

    fn edit(&mut self, name: &Name, node: &Node) -> Option<()> {
        let ticket = self.next();
        self.first.edit(ticket, &self.docs, name, node).ok()?;
        Some(())
    }

    fn look(&mut self, name: &Name) -> Option<Option<Node>> {
        self.first.look(&self.docs, name).ok()
    }

    fn commit(&mut self, scan: ScanResult) -> Option<()> {
        let ticket = self.next();
        self.first.scan_commit(ticket, &self.docs, scan).ok()?;
        Some(())
    }

    fn meet(&mut self) -> Option<()> {
        let ticket = self.next();
        self.link.connect(ticket).ok()?;
        let ticket = self.next();
        self.first.begin(ticket, &mut self.link).ok()?;
        let ticket = self.next();
        self.second.begin(ticket, &mut self.link).ok()?;
        let ticket = self.next();
        self.second.deliver(ticket, &mut self.link).ok()?;
        let ticket = self.next();
        self.first.deliver(ticket, &mut self.link).ok()?;
        Some(())
    }

    fn announce(&mut self) -> Option<()> {
        let ticket = self.next();
        self.first.announce(ticket, &mut self.link, &self.docs).ok()?;
        let ticket = self.next();
        self.second.deliver(ticket, &mut self.link).ok()?;
        Some(())
    }

    fn pull(&mut self, name: &Name) -> Option<()> {
        let ticket = self.next();
        self.second.pull(ticket, &self.docs, name).ok()?;
        Some(())
    }

    fn fetch(&mut self, name: &Name) -> Option<()> {
        let ticket = self.next();
        self.second.ask(ticket, &mut self.link, &self.docs, name).ok()?;
        let ticket = self.next();
        self.first.deliver(ticket, &mut self.link).ok()?;
        let ticket = self.next();
        self.second.deliver(ticket, &mut self.link).ok()?;
        Some(())
    }

    fn finish(&mut self, name: &Name) -> Option<()> {
        let ticket = self.next();
        self.second.finish(ticket, &self.docs, name).ok()?;
        Some(())
    }
}
PROGRAM
rt run > "$work/out" 2> "$work/log" || { cat "$work/out" "$work/log"; exit 1; }
test "$(grep -c '^\(bare\|logged\)\( [0-9]*\)\{7\}$' "$work/out")" -eq $((2 * runs))

# nothing is read
: > "$work/document"
for word in bare logged; do
  measure "$word" out/log_speed "$word"
  grep -qx 'made 65536' "$work/$word.out"
done

awk '
  function least(word, place) { if ((word, place) in best == 0 || $place < best[word, place]) best[word, place] = $place }
  { for (place = 2; place <= 8; place++) least($1, place) }
  function row(what, place, times) {
    printf "%-45s %8.2f us, with a log %8.2f: %.2f times\n", what, best["bare", place] / times, best["logged", place] / times, best["logged", place] / best["bare", place]
  }
  END {
    row("edit of a file of 1000 bytes", 2, 4096)
    row("record of a new file", 3, 4096)
    row("scan of an unchanged file: look, hash, record", 4, 4096)
    row("at most 1000 records sent and taken", 5, 5)
    row("pull", 6, 4096)
    row("block asked for, sent and taken", 7, 4096)
    row("end of a pull", 8, 4096)
  }' "$work/out"
for word in bare logged; do
  sort -n "$work/$word.times" | awk -v word="$word" '
    NR == 1 { seconds = $1 }
    $2 > memory { memory = $2 }
    END { printf "65536 edits and scans over 4096 names, %s: %.2f s, %d MB\n", word, seconds, memory * 1024 / 1e6 }'
done
