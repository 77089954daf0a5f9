#!/usr/bin/env bash
# Measures 'syncaudit rows' on settled streams of 100,000 and 1,000,000 rows (make_rows.py), each of a file on three devices:
# processor time a row, and that peak memory is that of one row; and on 4,000 rows beside 'check --certify' of the document for which
# they stand. RUNS runs each (3 if not given), of which the best counts; and ROWS rows in place of 1,000,000.
# shellcheck source=tools/bench/head.sh
. "$(dirname "$0")/head.sh"
runs=${1:-3}
most=${2:-1000000}

# make_stream ROWS: the stream of so many rows is the document that is measured from now on.
make_stream() {
  python3 "$top/tools/bench/make_rows.py" "$1" > "$work/document"
}

# as_document: writes the check document for which a stream of three devices stands, whose records are equal everywhere.
as_document() {
  python3 -c '
import json, sys
header, *rows = map(json.loads, sys.stdin)
for share in header["cut"]["folders"][0]["devices"]:
    share["own"] = [record for _, _, (record,), _, _ in rows]
    share["store"] = [node for _, _, _, (node,), _ in rows]
    for view in share["views"]:
        view["records"] = share["own"]
json.dump(header | {"certificate": []}, sys.stdout)'
}

# tell NAME ROWS: prints the best microseconds a row and the most memory of what was measured by this name.
tell() {
  awk -v name="$1" -v rows="$2" '
    NR == 1 || $1 < seconds { seconds = $1 }
    $2 > memory { memory = $2 }
    END { printf "%s of %d rows: %.1f microseconds a row, %.1f MB\n", name, rows, seconds * 1e6 / rows, memory * 1024 / 1e6 }' \
    "$work/$1.times"
}

make_stream 4000
measure rows "$program" rows
as_document < "$work/document" > "$work/check.json"
mv "$work/check.json" "$work/document"
measure check "$program" check --certify
cmp "$work/rows.out" "$work/check.out"
tell rows 4000
tell check 4000
for rows in 100000 "$most"; do
  make_stream "$rows"
  # Memory for the program and for a row, and for nothing that grows.
  (ulimit -v 20000 && measure rows "$program" rows)
  grep -qx settled "$work/rows.out"
  tell rows "$rows"
done
