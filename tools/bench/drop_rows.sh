#!/bin/sh
# drop_rows.sh: stands for a `syncaudit` that is asked by rows, and takes next to no time: it drops all rows of the folder docs of three
# devices, and says that it is firm. So devices.py --auditor tools/bench/drop_rows.sh join measures what the auditor of real devices itself takes.
if [ "$*" != "rows --firm" ]; then
  exec "${SYNCAUDIT:-$(dirname "$0")/../release/syncaudit}" "$@"
fi
lines=$(wc -l)
printf 'firm\nfolder docs: %d names, 0 deleted, 3 devices\n' "$((lines - 1))"
