#!/usr/bin/env bash
# pieces.sh PROGRAM: runs the built program on check documents that are put together of pieces, many of which differ in one
# piece, and compares what it tells. The rows stand in the scripts of pieces/. What is due was worked out by hand, by
# docs/documents.md; a hash is that of 'sha256sum'. The last line is 'N passed, M failed'.
# shellcheck disable=SC2034 # the files of pieces/ use the pieces
set -euo pipefail
program=$(readlink -m "$1")
cd "$(dirname "$0")/.."
passed=0
failed=0

if [ ! -x "$program" ]; then
  echo "pieces: there is no program $1"
  echo "0 passed, 1 failed"
  exit 1
fi

# expect WHAT WANTED TOLD: counts whether it is told what is wanted.
expect() {
  if [ "$2" = "$3" ]; then
    passed=$((passed + 1))
  else
    failed=$((failed + 1))
    echo "pieces: of $1 '$3' is told, and not '$2'"
  fi
}

# first_line COMMAND..: what the program writes first of standard input.
first_line() {
  { "$program" "$@" 2> /dev/null || true; } | sed -n 1p
}

# answer: 'read', or the fault for which the check document on standard input is refused.
answer() {
  first_line check | sed 's/^settled$/read/; s/^not settled: .*/read/; s/^refused: //'
}

# each_row BEFORE AFTER: of each line 'answer | piece' on standard input, a document of the piece between the others is
# told so. A line without a piece has an empty one.
each_row() {
  local wanted piece
  while IFS= read -r row; do
    wanted=${row%% |*}
    piece=${row#"$wanted |"}
    expect "$piece" "$wanted" "$(answer <<< "$1${piece# }$2")"
  done
}

begin='{"version":1,"cut":{"folders":['
folder='{"folder":"docs","devices":['
device='{"device":1,"kind":"send-receive","index_id":11,"max":9'
end='}]}]},"certificate":[]}'

# The folder of devices 1 and 2 ends, and one of devices 1 and 3 follows.
others='},{"device":2,"kind":"send-only","index_id":12,"max":0}]},{"folder":"other","devices":[
  {"device":1,"kind":"receive-only","index_id":21,"max":0},{"device":3,"kind":"send-only","index_id":23,"max":0}]}],"links":['
end_of_links=']},"certificate":[]}'

# letters COUNT: as many letters.
letters() {
  printf "n%.0s" $(seq "$1")
}

for part in documents records lists cuts choices differing; do
  # shellcheck source=/dev/null
  source "tests/pieces/$part.sh"
done

echo "$passed passed, $failed failed"
[ "$failed" = 0 ]
