#!/usr/bin/env bash
# Measures how long three devices take until all of them have FILES files of 100 KB (1000 if not given) that the first one has
# and no scan has seen: by run_workers, a thread for each scanner, puller and end of a link, and by one thread that makes the
# same turns one after the other. Both make TURNS turns at a time (50 if not given); then all logs begin anew, since a log
# holds 65536 events and a scanner's turn leaves one for each file.
set -euo pipefail
files=${1:-1000}
turns=${2:-50}
top=$(cd "$(dirname "$0")/../.." && pwd)
work=$(mktemp -d)
trap 'rm -rf "$work"' EXIT
. "$top/tools/bench/program.sh"

uses='bep_record bep_blocks bep_config bep_machine bep_store bep_core bep_log bep_run'
start_program running_speed "$uses" \
  bep_facts bep_record bep_choice bep_blocks bep_map bep_index bep_config bep_model bep_machine bep_fit bep_store bep_folder \
  bep_links bep_peer bep_core bep_log bep_run_check bep_tables bep_tree bep_json bep_document bep_cut_document bep_scenario bep_cut \
  bep_run_cut bep_run
cat > src/main.rt <<PROGRAM
// Prints the milliseconds until each device has all files, by threads and by one thread, and how many messages were delivered.
#![tactic(auto)]

use bep_blocks::{Gate, Place};
use bep_config::Config;
use bep_core::Cluster;
use bep_log::LogError;
use bep_machine::Step;
use bep_record::{DeviceId, FolderKind, FolderName, Items, Kind, Name, Node, NodeParts, Target};
use bep_run::{Shared, run_workers};
use bep_store::MemStore;
use std::alloc::Global;
use std::io;
use std::sync::Wait;
use std::sync::atomic::{AtomicU64, Ordering};
use std::thread::Threads;
use std::time::{Clock, Instant};

const DEVICES: u64 = 3;

const FILES: u64 = $files;

// How many turns each makes before the logs begin anew.
const TURNS: u32 = $turns;

// How often the logs begin anew at most.
const ROUNDS: u64 = 10000;

// Counts the messages that are delivered, and the names that are scanned.
struct Counting {
    delivered: AtomicU64,
    scanned: AtomicU64,
}

impl Counting {
    fn new() -> Self {
        Counting {
            delivered: AtomicU64::new(0),
            scanned: AtomicU64::new(0),
        }
    }
}

impl Drop for Counting {
    fn drop(self) {
        let Counting {
            delivered: _,
            scanned: _,
        } = self;
    }
}

impl Gate for Counting {
    fn pass(&self, place: Place) {
        match place {
            Place::Delivered(_) => {
                self.delivered.fetch_add(1, Ordering::SeqCst);
            }
            Place::Hashed(_) => {
                self.scanned.fetch_add(1, Ordering::SeqCst);
            }
            _ => {}
        }
    }
}

fn docs(alloc: Global) -> Option<FolderName> {
    FolderName::read(alloc, b"docs").ok()
}

fn file(alloc: Global, number: u64) -> Option<Node> {
    let mut bytes = vec![in alloc; 7u8; 100_000].ok()?;
    for (place, byte) in number.to_be_bytes().into_iter().enumerate() {
        *bytes.get_mut(place)? = byte;
    }
    let made = Node::read(NodeParts {
        kind: Kind::File,
        bytes: Items::new(bytes),
        target: Target::empty(alloc),
        modified_s: 1000,
        modified_ns: 0,
    });
    made.ok()
}

fn config(alloc: Global) -> Option<Config<MemStore>> {
    let mut config = Config::empty(alloc);
    config.add_folder(b"docs").ok()?;
    for number in 1..=DEVICES {
        let device = DeviceId::read(number)?;
        config
            .add_device(&docs(alloc)?, device, FolderKind::SendReceive, 10 + number, MemStore::new(alloc))
            .ok()?;
    }
    for lower in 1..=DEVICES {
        for upper in 1..=DEVICES {
            if lower < upper {
                config.add_link(DeviceId::read(lower)?, DeviceId::read(upper)?).ok()?;
            }
        }
    }
    Some(config)
}

// The cluster, all links up, with the files at the first device.
fn shared(alloc: Global) -> Option<Shared<MemStore>> {
    let mut cluster = Cluster::new(alloc, config(alloc)?).ok()?;
    for number in 0..FILES {
        let name = format!(in alloc; "{number}").ok()?;
        let name = Name::read(alloc, name.as_bytes()).ok()?;
        cluster.apply(Step::Edit(DeviceId::read(1)?, docs(alloc)?, name, file(alloc, number)?)).ok()?;
    }
    for lower in 1..=DEVICES {
        for upper in 1..=DEVICES {
            if lower < upper {
                cluster.apply(Step::Connect(DeviceId::read(lower)?, DeviceId::read(upper)?)).ok()?;
            }
        }
    }
    Shared::new(alloc, cluster).ok()
}

// One turn of each scanner, puller and end of a link.
fn round<R: Threads + Wait + Sync>(
    rt: &R,
    shared: &Shared<MemStore>,
    gate: &Counting,
) -> Result<(), LogError> {
    for number in 1..=DEVICES {
        if let Some(device) = DeviceId::read(number) {
            shared.scanner_turn(rt, device, gate)?;
            shared.puller_turn(rt, device)?;
        }
    }
    for number in 1..=DEVICES {
        for to in 1..=DEVICES {
            if let (Some(device), Some(other)) = (DeviceId::read(number), DeviceId::read(to)) {
                if number != to {
                    shared.session_turn(rt, device, other, gate)?;
                }
            }
        }
    }
    Ok(())
}

// Makes the turns of a round, by threads or one after the other.
fn turns<R: Threads + Wait + Sync>(
    rt: &R,
    shared: &Shared<MemStore>,
    gate: &Counting,
    threads: bool,
) -> Result<(), LogError> {
    if threads {
        run_workers(rt, shared, gate, TURNS)?;
        return Ok(());
    }
    for _ in 0..TURNS {
        round(rt, shared, gate)?;
    }
    Ok(())
}

// Whether each device has all files: its scanner finds each.
fn have_all<R: Threads + Wait + Sync>(rt: &R, shared: &Shared<MemStore>) -> Result<bool, LogError> {
    let gate = Counting::new();
    for number in 1..=DEVICES {
        if let Some(device) = DeviceId::read(number) {
            shared.scanner_turn(rt, device, &gate)?;
        }
    }
    Ok(gate.scanned.load(Ordering::SeqCst) == DEVICES * FILES)
}

// What was measured: the milliseconds of the turns, those of the logs that begin anew, the rounds of turns, and the messages.
#[derive(Clone, Copy)]
struct Spent {
    turns: u128,
    logs: u128,
    rounds: u64,
    messages: u64,
}

// Makes turns until each device has all files.
fn moved<R: Threads + Wait + Clock + Sync>(
    rt: &R,
    alloc: Global,
    threads: bool,
) -> io::Result<Option<Spent>> {
    let Some(shared) = shared(alloc) else {
        return Ok(None);
    };
    let gate = Counting::new();
    let mut spent = Spent {
        turns: 0,
        logs: 0,
        rounds: 0,
        messages: 0,
    };
    for number in 1..=ROUNDS {
        let start = Instant::now(rt)?;
        if turns(rt, &shared, &gate, threads).is_err() {
            return Ok(None);
        }
        spent.turns = spent.turns.saturating_add(start.elapsed(rt)?.as_millis());
        spent.rounds = number;
        spent.messages = gate.delivered.load(Ordering::SeqCst);
        match have_all(rt, &shared) {
            Ok(true) => return Ok(Some(spent)),
            Ok(false) => {}
            Err(_) => return Ok(None),
        }
        let start = Instant::now(rt)?;
        if shared.rebase_all(rt, number).is_err() {
            return Ok(None);
        }
        spent.logs = spent.logs.saturating_add(start.elapsed(rt)?.as_millis());
    }
    Ok(None)
}

fn main(rt: HostRuntime) -> io::Result<()> {
    for threads in [true, false] {
        let by = if threads { "threads" } else { "one thread" };
        match moved(&rt, rt.alloc(), threads)? {
            Some(spent) => {
                println!(rt; "{by}: {} ms, {} messages, {} rounds", spent.turns, spent.messages, spent.rounds)?;
                println!(rt; "beside these turns {} ms until logs had begun anew", spent.logs)?;
            }
            None => {
                println!(rt; "{by}: not measured")?;
            }
        }
    }
    Ok(())
}
PROGRAM
rt run > "$work/out" 2> "$work/log" || { cat "$work/out" "$work/log"; exit 1; }
# each of the two others asks for each block, and gets it
awk -v files="$files" '/ messages, / && $(NF - 3) >= 4 * files { whole++ } END { exit whole != 2 }' "$work/out" || { cat "$work/out"; exit 1; }
cat "$work/out"
awk '/ messages, / { spent[++n] = $(NF - 5) } END { printf "one thread takes %.2f times as long as threads\n", spent[2] / spent[1] }' "$work/out"
