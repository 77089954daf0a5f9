#!/usr/bin/env bash
# Measures the block list of 16 MiB of random bytes by 1, 2 and 4 workers, beside sha256sum, openssl and Syncthing's own
# hasher (Debian's golang-github-syncthing-syncthing-dev) on the same bytes: the best of RUNS runs each.
set -euo pipefail
runs=${1:-10}
mib=16
top=$(cd "$(dirname "$0")/../.." && pwd)
work=$(mktemp -d)
trap 'rm -rf "$work"' EXIT
. "$top/tools/bench/program.sh"

head -c $((mib * 1048576)) /dev/urandom > "$work/bytes"

start_program workers_speed 'bep_record bep_blocks' bep_record bep_blocks
cat > src/main.rt <<PROGRAM
// Prints how many blocks a file has, and the microseconds of each run by each number of workers.
#![tactic(auto)]

use bep_blocks::{OpenGate, blocks_by};
use bep_record::BlockSize;
use std::fs;
use std::io;
use std::time::Instant;

fn main(rt: HostRuntime) -> io::Result<()> {
    let bytes = fs::read(&rt, "$work/bytes")?;
    for _ in 0..$runs {
        for workers in [1, 2, 4] {
            let start = Instant::now(&rt)?;
            let made = blocks_by(&rt, rt.alloc(), &OpenGate, &bytes, BlockSize::base(), workers);
            let spent = start.elapsed(&rt)?.as_micros();
            match made {
                Ok(list) => {
                    println!(rt; "workers-{workers} micros {} blocks {}", spent, list.as_slice().len())?
                }
                Err(_) => println!(rt; "refused")?,
            }
        }
    }
    Ok(())
}
PROGRAM
rt run > "$work/out" 2> "$work/log" || { cat "$work/out" "$work/log"; exit 1; }
test "$(grep -c " blocks $((mib * 8))\$" "$work/out")" -eq $((runs * 3))

# Whole processes of sha256sum and of openssl, their reading of the cached file included.
for _ in $(seq "$runs"); do
  for tool in sha256sum 'openssl dgst -sha256'; do
    begin=$(date +%s%N)
    $tool "$work/bytes" > /dev/null
    end=$(date +%s%N)
    echo "${tool%% *} micros $(((end - begin) / 1000))"
  done
done >> "$work/out"

# Syncthing's block list of bytes in memory, by one thread, with and without the weak hash that it makes beside SHA-256.
mkdir "$work/hasher"
cat > "$work/hasher/main.go" <<'PROGRAM'
package main

import (
	"bytes"
	"context"
	"fmt"
	"os"
	"strconv"
	"time"

	"github.com/syncthing/syncthing/lib/protocol"
	"github.com/syncthing/syncthing/lib/scanner"
	"github.com/syncthing/syncthing/lib/sha256"
)

func main() {
	sha256.SelectAlgo() // as a starting Syncthing does
	data, err := os.ReadFile(os.Args[1])
	if err != nil {
		panic(err)
	}
	runs, _ := strconv.Atoi(os.Args[2])
	for i := 0; i < runs; i++ {
		for _, weak := range []bool{false, true} {
			start := time.Now()
			list, err := scanner.Blocks(context.TODO(), bytes.NewReader(data), protocol.MinBlockSize, int64(len(data)), nil, weak)
			spent := time.Since(start)
			if err != nil {
				panic(err)
			}
			fmt.Printf("syncthing-weak-%v micros %d blocks %d\n", weak, spent.Microseconds(), len(list))
		}
	}
}
PROGRAM
(cd "$work/hasher" && GO111MODULE=off GOPATH=/usr/share/gocode GOFLAGS='' go build -o hasher main.go)
"$work/hasher/hasher" "$work/bytes" "$runs" >> "$work/out"

awk -v mib="$mib" '
  $2 == "micros" && ($1 in best == 0 || $3 < best[$1]) { best[$1] = $3 }
  function row(name) { printf "%-22s %7.1f MiB/s, %5.2f times one worker\n", name, mib * 1e6 / best[name], best["workers-1"] / best[name] }
  END {
    row("workers-1")
    row("workers-2")
    row("workers-4")
    row("sha256sum")
    row("openssl")
    row("syncthing-weak-false")
    row("syncthing-weak-true")
  }' "$work/out"
