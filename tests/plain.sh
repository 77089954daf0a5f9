#!/usr/bin/env bash
# plain.sh PROGRAM PLAIN: runs the plain checker on each document that rows.py, pieces.sh and steps.py have the program
# audit, and compares its report with the program's; of a document that is refused it writes none. The last line is 'N passed, M failed'.
set -euo pipefail
program=$(readlink -m "$1")
plain=$(readlink -m "$2")
cd "$(dirname "$0")"
passed=0
failed=0
work=$(mktemp -d)
trap 'rm -rf "$work"' EXIT

for built in "$program" "$plain"; do
  if [ ! -x "$built" ]; then
    echo "plain: there is no program $built"
    echo "0 passed, 1 failed"
    exit 1
  fi
done

# What the program is to audit, each document once.
mkdir "$work/kept" "$work/documents"
export PROGRAM=$program KEPT=$work/kept
for script in rows.py pieces.sh steps.py; do
  "./$script" keeper.sh > /dev/null &
done
wait
for kept in "$work"/kept/check.*; do
  mv "$kept" "$work/documents/$(sha256sum < "$kept" | cut -c 1-64)"
done

# report NAME COMMAND..: keeps what is written of the document on standard input under that name, and its status.
report() {
  local name=$1
  shift
  status=0
  "$@" > "$work/$name" 2> /dev/null || status=$?
}

for document in "$work/documents"/*; do
  report walked "$program" check < "$document"
  walked=$status
  report plainly "$plain" < "$document"
  if { [ "$walked" = 2 ] && [ "$status" = 2 ] && [ ! -s "$work/plainly" ]; } ||
    { [ "$walked" -lt 2 ] && [ "$status" = 0 ] && cmp -s "$work/walked" "$work/plainly"; }; then
    passed=$((passed + 1))
  else
    failed=$((failed + 1))
    echo "plain: of a document that begins '$(head -c 300 "$document" | tr -d '\0\n')' the plain checker tells" \
      "'$(head -c 200 "$work/plainly")' with status $status, and the program '$(head -c 200 "$work/walked")'"
  fi
done

if [ "$passed" = 0 ]; then
  failed=$((failed + 1))
  echo "plain: no document was compared"
fi
echo "$passed passed, $failed failed"
[ "$failed" = 0 ]
