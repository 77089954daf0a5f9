#!/usr/bin/env bash
# Measures a whole './test --anew' of a fresh clone of REVISION (HEAD if there is no word): processor seconds of proofs, tests and
# must-fail edits for each crate, and the wall time. The clone stands in a temporary folder, and its output in LOG, the
# second word, or else in that folder, which then stays.
set -euo pipefail
top=$(cd "$(dirname "$0")/../.." && pwd)
revision=$(git -C "$top" rev-parse --verify "${1:-HEAD}^{commit}")
work=$(mktemp -d)
log=${2:-$work/log}
if [ $# -ge 2 ]; then
  trap 'rm -rf "$work"' EXIT
else
  trap 'rm -rf "$work/clone"' EXIT
fi
git clone -q --no-checkout "$top" "$work/clone"
git -C "$work/clone" checkout -q --detach "$revision"

echo "revision  $(git -C "$top" log -1 --format='%h of %cd' --date=short "$revision")"
echo "date      $(date -u '+%Y-%m-%d %H:%M UTC')"
echo "machine   $(nproc) cores, load $(cut -d' ' -f1 /proc/loadavg) as it began"
echo "toolchain $(rt version)"
echo "log       $log"
cd "$work/clone"
status=0
python3 "$top/tools/bench/gate.py" "$log" ${GATE_COMMAND:-./test --anew} || status=$?
exit $status
