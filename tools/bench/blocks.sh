#!/usr/bin/env bash
# blocks.sh [MIB [RUNS]]: measures the block list of so many MiB (16) of random bytes, in blocks of the size for that length,
# beside sha256sum on the same bytes: the best of RUNS runs each (10), and the memory that all of ours take at most.
set -euo pipefail
mib=${1:-16}
runs=${2:-10}
top=$(cd "$(dirname "$0")/../.." && pwd)
work=$(mktemp -d)
trap 'rm -rf "$work"' EXIT
. "$top/tools/bench/program.sh"

head -c $((mib * 1048576)) /dev/urandom > "$work/bytes"

start_program hash_speed 'bep_record bep_blocks' bep_record bep_blocks
cat > src/main.rt <<PROGRAM
// Prints how many blocks a file has, and the microseconds of each run.
#![tactic(auto)]

use bep_blocks::blocks;
use bep_record::BlockSize;
use std::fs;
use std::io;
use std::time::Instant;

fn main(rt: HostRuntime) -> io::Result<()> {
    let bytes = fs::read(&rt, "$work/bytes")?;
    let size = match BlockSize::of_length(bytes.len() as u64) {
        Ok(size) => size,
        Err(_) => BlockSize::base(),
    };
    for _ in 0..$runs {
        let start = Instant::now(&rt)?;
        let made = blocks(rt.alloc(), &bytes, size);
        let spent = start.elapsed(&rt)?.as_micros();
        match made {
            Ok(list) => println!(rt; "blocks {} micros {}", list.as_slice().len(), spent)?,
            Err(_) => println!(rt; "refused")?,
        }
    }
    Ok(())
}
PROGRAM
rt run > "$work/out" 2> "$work/log" || { cat "$work/out" "$work/log"; exit 1; }
size=131072
while [ $((size * 2000)) -le $((mib * 1048576)) ]; do
  size=$((size * 2))
done
grep -q "^blocks $(((mib * 1048576 + size - 1) / size)) " "$work/out"
/usr/bin/time -o "$work/memory" -f 'memory %M' out/hash_speed > /dev/null
cat "$work/memory" >> "$work/out"

# Whole processes of sha256sum, its reading of the cached file included.
for _ in $(seq "$runs"); do
  begin=$(date +%s%N)
  sha256sum "$work/bytes" > /dev/null
  end=$(date +%s%N)
  echo "sum micros $(((end - begin) / 1000))"
done >> "$work/out"

awk -v mib="$mib" '
  $1 == "blocks" && (ours == 0 || $4 < ours) { ours = $4 }
  $1 == "sum" && (theirs == 0 || $3 < theirs) { theirs = $3 }
  $1 == "memory" { memory = $2 }
  END {
    printf "blocks     %7.1f MiB/s, %.1f MB for %.1f MB of bytes\n", mib * 1e6 / ours, memory * 1024 / 1e6, mib * 1048576 / 1e6
    printf "sha256sum  %7.1f MiB/s\n", mib * 1e6 / theirs
    printf "blocks takes %.2f times as long\n", ours / theirs
  }' "$work/out"
