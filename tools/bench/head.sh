# shellcheck shell=bash
# The head of scripts beside it that measure the program: the repository's folder, a folder for what is made, which goes at the
# end, the program that ./syncaudit runs, and what measures.
set -euo pipefail
top=$(cd "$(dirname "${BASH_SOURCE[0]}")/../.." && pwd)
work=$(mktemp -d)
trap 'rm -rf "$work"' EXIT
. "$top/tools/release/choose.sh"
choose
. "$top/tools/bench/measure.sh"
