#!/usr/bin/env bash
# torn.sh PROGRAM PLAIN SECOND TORN: runs TORN, crates/torn_logs, on scenarios, and compares the run check's verdict on copies
# made at each two moments with that of the second reading in second/. It needs Python 3.11 or later. Without it nothing is
# compared, and the line that says so is told again at the end of ./test. The last line is 'N passed, M failed', and
# ', 1 skipped' after it where they are.
set -euo pipefail
torn=$(readlink -m "$4")
cd "$(dirname "$0")/.."

if ! python3 -c 'import sys; sys.exit(sys.version_info < (3, 11))' 2> /dev/null; then
  echo "torn: SKIPPED: there is no python3 of version 3.11 or later, so no verdict of the run check was compared"
  echo "0 passed, 0 failed, 1 skipped"
  exit
fi
exec second/compare_logs.py "$torn"
