#!/usr/bin/env bash
# compare.sh: runs the tests of the second reading in second/, those among them that show what the headline rules out. They
# need Python 3.11 or later, and nothing that was built. Without it they are skipped, and the line that says so is told
# again at the end of ./test. The last line is 'N passed, M failed', and ', 1 skipped' after it where they are.
set -euo pipefail
cd "$(dirname "$0")/.."

if ! python3 -c 'import sys; sys.exit(sys.version_info < (3, 11))' 2> /dev/null; then
  echo "compare: SKIPPED: there is no python3 of version 3.11 or later, so no test of the second reading was run"
  echo "0 passed, 0 failed, 1 skipped"
  exit
fi
exec second/run_tests.py
