#!/usr/bin/env bash
# Measures 'syncaudit firm' and 'syncaudit converge' beside 'syncaudit check' on settled documents near the limits
# (make_document.py has their kinds): seconds of the whole process (the best of RUNS runs each) and peak memory.
# shellcheck source=tools/bench/head.sh
. "$(dirname "$0")/head.sh"
runs=${1:-3}

for kind in settled flights devices names; do
  make_document "$kind"
  measure check "$program" check
  measure firm "$program" firm || true
  measure converge "$program" converge || true
  grep -qx settled "$work/check.out"
  echo "== $kind: $(head -n 1 "$work/firm.out"), $(head -n 1 "$work/converge.out")"
  compare check firm
  compare check converge
done
