#!/usr/bin/env bash
# Measures the reading of a check document near the limits, beside the pass alone that sees that it is JSON, and beside the
# tree that the kit's serde_json makes of the same bytes: seconds of the whole process (the best of RUNS runs each) and peak
# memory.
set -euo pipefail
runs=${1:-3}
top=$(cd "$(dirname "$0")/../.." && pwd)
work=$(mktemp -d)
trap 'rm -rf "$work"' EXIT
. "$top/tools/bench/measure.sh"
. "$top/tools/bench/program.sh"

start_program read_speed 'bep_tree bep_cut_document serde_json' \
  bep_facts bep_record bep_blocks bep_choice bep_map bep_index bep_tree bep_json bep_document bep_model bep_tables bep_cut_document
cat > src/main.rt <<PROGRAM
// Reads the document: the whole of it for the word 'whole', passes it once for 'pass', else makes serde_json's tree.
#![tactic(auto)]

use bep_cut_document::read_check;
use bep_tree::{Scratch, json_text};
use serde_json::Value;
use std::alloc::Global;
use std::{env, fs, io};

fn is_read(alloc: Global, bytes: &[u8], word: &str) -> bool {
    if word == "whole" {
        return read_check(alloc, bytes).is_ok();
    }
    if word == "pass" {
        let mut scratch = Scratch::new(alloc);
        return json_text(bytes, "version", &mut scratch).is_ok();
    }
    Value::from_slice(alloc, bytes).is_ok()
}

fn main(rt: HostRuntime) -> io::Result<()> {
    let bytes = fs::read(&rt, "$work/document")?;
    let word = env::args(&rt)?.nth(1).unwrap_or(String::new(rt.alloc()));
    println!(rt; "{}", is_read(rt.alloc(), &bytes, word.as_str()))?;
    Ok(())
}
PROGRAM
make_document settled
rt run > "$work/log" 2>&1 || { cat "$work/log"; exit 1; }

measure serde_json out/read_speed
measure pass out/read_speed pass
measure reading out/read_speed whole
for one in serde_json pass reading; do
  grep -qx true "$work/$one.out"
done
compare serde_json pass
compare serde_json reading
