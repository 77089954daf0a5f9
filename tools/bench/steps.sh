#!/usr/bin/env bash
# steps.sh [STEPS]: how many steps a second `syncaudit run` makes of a scenario of STEPS steps (100,000 where there is no
# word) over 512 names and over 4096, with its reading and the audit of its end (the best of 3 runs), and its greatest
# memory. The program is the one that ./syncaudit runs.
# shellcheck source=tools/bench/head.sh
. "$(dirname "$0")/head.sh"
steps=${1:-100000}
runs=3

for names in 512 4096; do
  "$top/tools/bench/make_scenario.py" "$names" "$steps" > "$work/document"
  measure run bash -c '"$1" run || [ $? = 1 ]' run "$program"
  if grep '^refused\|^step' "$work/run.out" | head -3 | grep .; then
    exit 1
  fi
  sort -n "$work/run.times" | awk -v steps="$steps" -v names="$names" -v bytes="$(stat -c %s "$work/document")" '
    NR == 1 { seconds = $1 }
    $2 > memory { memory = $2 }
    END {
      printf "%5d names: %6.2f s, %7.0f steps a second, %4d MB, of a document of %d MB\n", names, seconds, steps / seconds, memory * 1024 / 1e6, bytes / 1e6
    }'
done
