#!/usr/bin/env bash
# Measures each program that is named, in turn, on documents that are costly to read or to run (make_hostile.py has their
# kinds): processor seconds and peak memory, the best of RUNS runs. Without a program it measures the one that ./syncaudit
# runs.
#
#     tools/bench/hostile.sh [PROGRAM ..]
#
# KINDS names other documents than those below, as 'KIND MEGABYTES SUBCOMMAND [FLAG ..]' each; RUNS is 3 where it isn't set.
set -euo pipefail
top=$(cd "$(dirname "$0")/../.." && pwd)
work=$(mktemp -d)
trap 'rm -rf "$work"' EXIT

if [ $# = 0 ]; then
  . "$top/tools/release/choose.sh"
  choose
  set -- "$program"
fi
kinds=${KINDS:-digits 60 check
digits 60 certify
digits 60 check --certify
twice 60 check
strangers 20 check
nested 17 check
zeros 60 check
unended 60 check
singles 60 check
lists 60 check
pairs 16 check
rows 16 certify
names 60 certify
steps 16 run
restarts 16 run
flood 4 run
scans 16.783 run
crowded 17.123 run
asks 17 run}

while read -r kind megabytes words; do
  python3 "$top/tools/bench/make_hostile.py" "$kind" "$megabytes" > "$work/document"
  bytes=$(stat -c %s "$work/document")
  echo "== $words of $kind, $bytes bytes"
  rm -f "$work"/times.*
  for _ in $(seq "${RUNS:-3}"); do
    for place in $(seq $#); do
      # shellcheck disable=SC2086 # the words are several
      /usr/bin/time -a -o "$work/times.$place" -f '%U %S %M' "${!place}" $words < "$work/document" > "$work/told.$place" 2> "$work/beside" || true
    done
  done
  for place in $(seq $#); do
    cmp -s "$work/told.1" "$work/told.$place" || echo "${!place} answers otherwise than $1"
    grep -v '^Command' "$work/times.$place" | awk -v program="${!place}" -v bytes="$bytes" '
      NR == 1 || $1 + $2 < seconds { seconds = $1 + $2 }
      $3 > memory { memory = $3 }
      END { printf "%-40s %8.2f processor seconds, %6.1f bytes of memory a byte\n", program, seconds, memory * 1024 / bytes }'
  done
done <<< "$kinds"
