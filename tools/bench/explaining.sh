#!/usr/bin/env bash
# Measures 'syncaudit explain' on documents that are costly to explain (make_hostile.py has their kinds): processor seconds
# and peak memory, as text, as JSON and with --firm.
#
#     tools/bench/explaining.sh [KIND MEGABYTES ..]
# shellcheck source=tools/bench/head.sh
. "$(dirname "$0")/head.sh"

[ $# -gt 0 ] || set -- names 8 names 16 names 32 names 64 repeated 18.8 falling 7.9 contents 18.8 ahead 16 unknown 4
while [ $# -gt 1 ]; do
  python3 "$top/tools/bench/make_hostile.py" "$1" "$2" > "$work/document"
  echo "== $1, $(stat -c %s "$work/document") bytes"
  for form in '' --json --firm; do
    /usr/bin/time -o "$work/time" -f '%U %M' "$program" explain $form < "$work/document" > "$work/told" || true
    tail -n 1 "$work/time" | awk -v form="$form" -v bytes="$(stat -c %s "$work/document")" -v told="$(stat -c %s "$work/told")" \
      '{ printf "explain %-7s %8.2f processor seconds, %5.1f bytes of memory a byte, %d bytes written\n", form, $1, $2 * 1024 / bytes, told }'
  done
  shift 2
done
