#!/usr/bin/env bash
# Measures 'syncaudit check' on settled documents near the limits, beside a Rust program that parses the same bytes with
# Rust's own serde_json (Debian's package librust-serde-json-dev) and does nothing else: processor seconds (the best of RUNS
# runs each) and peak memory. 'check --certify' is measured beside 'check'. The kinds of documents are those of
# make_document.py.
set -euo pipefail
runs=${1:-3}
top=$(cd "$(dirname "$0")/../.." && pwd)
registry=/usr/share/cargo/registry
if ! ls -d "$registry"/serde_json-* > /dev/null 2>&1; then
  echo "checking.sh: apt-get install librust-serde-json-dev first" >&2
  exit 1
fi
work=$(mktemp -d)
trap 'rm -rf "$work"' EXIT

. "$top/tools/release/choose.sh"
choose
. "$top/tools/bench/measure.sh"

mkdir -p "$work/serde/src" "$work/serde/.cargo"
cat > "$work/serde/.cargo/config.toml" <<CONFIG
[source.crates-io]
replace-with = "debian"
[source.debian]
directory = "$registry"
CONFIG
cat > "$work/serde/Cargo.toml" <<'MANIFEST'
[package]
name = "parse"
version = "0.0.0"
edition = "2021"
[dependencies]
serde_json = "1"
MANIFEST
cat > "$work/serde/src/main.rs" <<'PROGRAM'
use std::io::Read;

fn main() {
    let mut bytes = Vec::new();
    std::io::stdin().read_to_end(&mut bytes).unwrap();
    let tree: serde_json::Value = serde_json::from_slice(&bytes).unwrap();
    println!("{}", tree.is_object());
}
PROGRAM
(cd "$work/serde" && cargo build --release --offline > "$work/log" 2>&1) || { cat "$work/log"; exit 1; }

for kind in settled flights devices names long bytes; do
  make_document "$kind"
  measure serde_json "$work/serde/target/release/parse"
  measure check "$program" check
  measure certified "$program" check --certify
  grep -qx true "$work/serde_json.out"
  grep -qx settled "$work/check.out"
  echo "== $kind"
  compare serde_json check
  compare check certified
done
