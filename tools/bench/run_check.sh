#!/usr/bin/env bash
# Measures the run check over 16 devices, with 4096, 16384 and 65536 events each: seconds, and how they grow. Each event is an
# edit, and the devices take turns, so the check goes past one event at each step and looks at 136 logs.
set -euo pipefail
top=$(cd "$(dirname "$0")/../.." && pwd)
work=$(mktemp -d)
trap 'rm -rf "$work"' EXIT
. "$top/tools/bench/program.sh"

start_program run_speed 'bep_record bep_map bep_index bep_fit bep_store bep_folder bep_links bep_peer bep_log bep_run_cut' \
  $(grep -o '^bep_[a-z_]*' "$top/crates.txt" | grep -v -e bep_answer -e bep_explain -e bep_play -e bep_live -e bep_words -e bep_report -e bep_hints -e bep_lines)
cat > src/main.rt <<'PROGRAM'
// Prints the milliseconds of the run check over 16 devices, for each number of events a device.
#![tactic(auto)]

use bep_fit::RunVerdict;
use bep_folder::Replica;
use bep_index::IndexId;
use bep_links::Link;
use bep_log::{LinkCopy, LoggedLink, LoggedPeer, PeerCopy};
use bep_map::FolderMap;
use bep_peer::Peer;
use bep_record::{DeviceId, FolderKind, FolderName, Items, Kind, Name, Node, NodeParts, Target};
use bep_run_cut::{RunCut, check_run};
use bep_store::MemStore;
use std::alloc::Global;
use std::io;
use std::time::Instant;

const DEVICES: u64 = 16;

fn others(alloc: Global, device: u64) -> Option<Vec<DeviceId>> {
    let mut others = Vec::new(alloc);
    for number in 1..=DEVICES {
        if number != device {
            others.push(DeviceId::read(number)?).ok()?;
        }
    }
    Some(others)
}

fn docs(alloc: Global) -> Option<FolderName> {
    FolderName::read(alloc, b"docs").ok()
}

fn device(alloc: Global, number: u64) -> Option<LoggedPeer<MemStore>> {
    let id = DeviceId::read(number)?;
    let replica = Replica::new(
        alloc,
        id,
        docs(alloc)?,
        FolderKind::SendReceive,
        IndexId::read(number)?,
        others(alloc, number)?,
        MemStore::new(alloc),
    )?;
    let mut folders = FolderMap::new(alloc);
    folders.insert(docs(alloc)?, replica).ok()?;
    let peer = Peer::new(alloc, id, folders, others(alloc, number)?)?;
    LoggedPeer::new(alloc, peer).ok()
}

fn node(alloc: Global) -> Option<Node> {
    let made = Node::read(NodeParts {
        kind: Kind::Directory,
        bytes: Items::new(Vec::new(alloc)),
        target: Target::empty(alloc),
        modified_s: 2000,
        modified_ns: 0,
    });
    made.ok()
}

// A device that edits so often, each time when its turn among the devices comes.
fn edited(alloc: Global, number: u64, events: u64) -> Option<PeerCopy> {
    let mut logged = device(alloc, number)?;
    let folder = docs(alloc)?;
    let name = Name::read(alloc, b"a").ok()?;
    let node = node(alloc)?;
    let mut ticket = number;
    for _event in 0..events {
        logged.edit(ticket, &folder, &name, &node).ok()?;
        ticket = ticket.saturating_add(DEVICES);
    }
    logged.copy().ok()
}

fn links(alloc: Global) -> Option<Vec<LinkCopy>> {
    let mut links = Vec::new(alloc);
    for lower in 1..=DEVICES {
        for upper in 1..=DEVICES {
            if lower < upper {
                let link = Link::new(alloc, DeviceId::read(lower)?, DeviceId::read(upper)?)?;
                links.push(LoggedLink::new(alloc, link).ok()?.copy().ok()?).ok()?;
            }
        }
    }
    Some(links)
}

fn run_cut(alloc: Global, events: u64) -> Option<RunCut> {
    let mut peers = Vec::new(alloc);
    for number in 1..=DEVICES {
        peers.push(edited(alloc, number, events)?).ok()?;
    }
    RunCut::of(alloc, peers, links(alloc)?).ok()?
}

fn measure(rt: HostRuntime, events: u64) -> io::Result<bool> {
    let Some(run) = run_cut(rt.alloc(), events) else {
        return Ok(false);
    };
    let start = Instant::now(&rt)?;
    let verdict = check_run(&run);
    println!(rt; "{} events each: {} ms", events, start.elapsed(&rt)?.as_millis())?;
    Ok(match verdict {
        RunVerdict::Fits(count) => count == DEVICES.saturating_mul(events),
        RunVerdict::Misfit(_, _) => false,
    })
}

fn main(rt: HostRuntime) -> io::Result<()> {
    for events in [4096u64, 16384, 65536] {
        println!(rt; "fits {}", measure(rt, events)?)?;
    }
    Ok(())
}
PROGRAM
rt run > "$work/out" 2> "$work/log" || { cat "$work/out" "$work/log"; exit 1; }
test "$(grep -c '^fits true$' "$work/out")" -eq 3
grep ' events each: ' "$work/out"
