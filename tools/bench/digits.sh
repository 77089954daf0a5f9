#!/usr/bin/env bash
# Measures how bep_json reads 16 MiB of random bytes in hexadecimal digits, by its table, beside the kit's crate hex, which
# decides by ranges: the best of RUNS runs each, in turn.
set -euo pipefail
runs=${1:-10}
mib=16
top=$(cd "$(dirname "$0")/../.." && pwd)
work=$(mktemp -d)
trap 'rm -rf "$work"' EXIT
. "$top/tools/bench/program.sh"

python3 -c 'import os, sys; sys.stdout.write(os.urandom(int(sys.argv[1]) * 2**20).hex())' "$mib" > "$work/digits"

start_program digit_speed hex
mkdir proofs
cp "$top/crates/bep_json/src/digits.rt" src/digits.rt
cp -r "$top/crates/bep_json/proofs/digits" "$top/crates/bep_json/proofs/DigitFacts.antt" proofs
echo 'pub mod DigitFacts' > proofs/Lib.antt
find proofs -name '*.antt' -exec sed -i 's/Rattle\.bep_json\./Rattle.digit_speed./' {} +
cat > src/main.rt <<PROGRAM
// Prints the microseconds of each run, by the table and by the crate hex.
#![tactic(auto)]

mod digits;

use digits::{bytes_of, hash_of};
use std::fs;
use std::io;
use std::time::Instant;

fn main(rt: HostRuntime) -> io::Result<()> {
    let digits = fs::read(&rt, "$work/digits")?;
    let _none = hash_of(&digits);
    for _ in 0..$runs {
        let start = Instant::now(&rt)?;
        let made = bytes_of(rt.alloc(), &digits);
        let spent = start.elapsed(&rt)?.as_micros();
        match made {
            Ok(Some(bytes)) => println!(rt; "table {} micros {}", bytes.len(), spent)?,
            _ => println!(rt; "refused")?,
        }
        let start = Instant::now(&rt)?;
        let made = hex::decode(rt.alloc(), digits.as_slice());
        let spent = start.elapsed(&rt)?.as_micros();
        match made {
            Ok(bytes) => println!(rt; "hex {} micros {}", bytes.len(), spent)?,
            Err(_) => println!(rt; "refused")?,
        }
    }
    Ok(())
}
PROGRAM
rt run > "$work/out" 2> "$work/log" || { cat "$work/out" "$work/log"; exit 1; }
grep -q "^table $((mib * 2**20)) " "$work/out"

awk -v mib="$mib" '
  $1 == "table" && (ours == 0 || $4 < ours) { ours = $4 }
  $1 == "hex" && (theirs == 0 || $4 < theirs) { theirs = $4 }
  END {
    printf "table      %7.1f MiB/s of bytes\n", mib * 1e6 / ours
    printf "crate hex  %7.1f MiB/s\n", mib * 1e6 / theirs
    printf "hex takes %.2f times as long\n", theirs / ours
  }' "$work/out"
