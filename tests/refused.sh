#!/usr/bin/env bash
# refused.sh PROGRAM PLAIN SECOND: refuses the program one call after the other, each growth of its memory, each read and
# each write of standard output, until none is left to refuse. Without memory it must end with status 4, after a refused read
# or write with status 5, and it must have written nothing, of a stream of rows a beginning of the answer; or it made do without the call, and then answers as ever.
# Where memory is wanting for the hint on a refused document alone, it says so in the hint's place. An
# interrupted read or write isn't tried again, nor one that takes nothing. Where each read gives and each write takes a few
# bytes alone it answers as ever. SECOND, crates/second_try, asks once more for whatever memory was wanting for, and must then
# tell as ever; of bytes that are no document it tells what two workers make of them. The last line is 'N passed, M failed',
# a run each.
set -euo pipefail
program=$(readlink -m "$1")
second=$(readlink -m "$3")
cd "$(dirname "$0")/.."
passed=0
failed=0
work=$(mktemp -d)
trap 'rm -rf "$work"' EXIT

# Where nothing can be refused that is a failure: what else would say that it wasn't tried is one line among many.
compiler=$(command -v cc || command -v clang || command -v gcc || true)
if [ -z "$compiler" ]; then
  echo "refused: no call was refused, since there is no C compiler: neither cc nor clang nor gcc is on PATH"
  echo "0 passed, 1 failed"
  exit 1
fi
"$compiler" -O1 -shared -fPIC -o "$work/refuse.so" tests/refusing/refuse.c -ldl

# run_refused KIND NUMBER DOCUMENT WORDS..: runs the program with that call refused, and keeps its status.
run_refused() {
  local kind=$1 number=$2 document=$3
  shift 3
  rm -f "$work/refused"
  status=0
  env "REFUSE_$kind=$number" "REFUSED=$work/refused" LD_PRELOAD="$work/refuse.so" \
    "$program" "$@" < "$document" > "$work/out" 2> "$work/err" || status=$?
}

# answer DOCUMENT WORDS..: keeps what the program answers where nothing is refused.
answer() {
  local document=$1
  shift
  ever=0
  "$program" "$@" < "$document" > "$work/ever" 2> /dev/null || ever=$?
}

# Whether the last run answered so too.
is_as_ever() {
  [ "$status" = "$ever" ] && cmp -s "$work/out" "$work/ever"
}

# Whether the last run wrote nothing; with STREAMED, whether it wrote a beginning of the answer, as to rows, which are answered
# as they come.
has_kept_back() {
  if [ -n "${STREAMED:-}" ]; then
    cmp -s -n "$(wc -c < "$work/out")" "$work/out" "$work/ever"
  else
    [ ! -s "$work/out" ]
  fi
}

# refuse KIND STATUS DOCUMENT WORDS..: refuses the first, the second and each further call of the kind, of which there must
# be one.
refuse() {
  local kind=$1 wanted=$2 document=$3 number=1
  shift 3
  while run_refused "$kind" "$number" "$document" "$@"; [ -e "$work/refused" ]; do
    if [ "$status" = "$wanted" ] && has_kept_back; then
      passed=$((passed + 1))
    elif [ "$kind" = GROWTH ] && is_as_ever; then
      passed=$((passed + 1))
    else
      failed=$((failed + 1))
      echo "refused: $* < $document: with $kind $number refused it ended with $status and wrote $(wc -c < "$work/out") bytes"
    fi
    number=$((number + 1))
  done
  if [ "$number" = 1 ]; then
    failed=$((failed + 1))
    echo "refused: $* < $document: it has no $kind to refuse"
  fi
}

# cut_off DOCUMENT WORDS..: refuses a writer that takes the first bytes alone, none, one and so on: these stand, and no more.
cut_off() {
  local document=$1 whole taken
  answer "$@"
  shift
  whole=$(wc -c < "$work/ever")
  if [ "$whole" = 0 ]; then
    failed=$((failed + 1))
    echo "refused: $* < $document: it writes nothing that could be cut off"
  fi
  for ((taken = 0; taken < whole; taken++)); do
    run_refused ROOM "$((taken + 1))" "$document" "$@"
    if [ "$status" = 5 ] && cmp -s "$work/out" <(head -c "$taken" "$work/ever"); then
      passed=$((passed + 1))
    else
      failed=$((failed + 1))
      echo "refused: $* < $document: where $taken bytes are taken it ended with $status and wrote $(wc -c < "$work/out")"
    fi
  done
}

# in_pieces BYTES DOCUMENT WORDS..: lets each read give, and each write take, so many bytes at most.
in_pieces() {
  local bytes=$1 document=$2
  shift
  answer "$@"
  shift
  run_refused PIECE "$bytes" "$document" "$@"
  if is_as_ever; then
    passed=$((passed + 1))
  else
    failed=$((failed + 1))
    echo "refused: $* < $document: in pieces of $bytes bytes it ended with $status"
  fi
}

# try_again DOCUMENT: refuses each growth to the program that asks once more. It tells as ever, and by status 1 that it asked
# for something twice; or it ends with status 4 and writes nothing, where what was wanting used up what it was made of.
try_again() {
  local document=$1 program=$second number=1 twice=0
  answer "$document"
  while run_refused GROWTH "$number" "$document"; [ -e "$work/refused" ]; do
    if [ "$ever" = 0 ] && [ "$status" -lt 2 ] && cmp -s "$work/out" "$work/ever"; then
      passed=$((passed + 1))
      twice=$((twice + status))
    elif [ "$ever" = 0 ] && [ "$status" = 4 ] && [ ! -s "$work/out" ]; then
      passed=$((passed + 1))
    else
      failed=$((failed + 1))
      echo "refused: second_try < $document: with growth $number refused it ended with $status, and tells something else"
    fi
    number=$((number + 1))
  done
  echo "refused: second_try < $document: of $((number - 1)) growths that were refused, $twice were asked for once more"
  if [ "$twice" = 0 ]; then
    failed=$((failed + 1))
    echo "refused: second_try < $document: it asked for nothing once more"
  fi
}

# miss_hint DOCUMENT WORDS..: refuses each growth, where the document is refused without a place. Beside the refusal stands the
# hint as ever, or that memory was wanting for it, which must come.
miss_hint() {
  local document=$1 number=1 missed=0
  shift
  answer "$document" "$@"
  "$program" "$@" < "$document" 2> "$work/hint" > /dev/null || true
  while run_refused GROWTH "$number" "$document" "$@"; [ -e "$work/refused" ]; do
    if [ "$status" = 4 ] && [ ! -s "$work/out" ] && [ "$(cat "$work/err")" = memory ]; then
      passed=$((passed + 1))
    elif is_as_ever && cmp -s "$work/err" "$work/hint"; then
      passed=$((passed + 1))
    elif is_as_ever && [ "$(cat "$work/err")" = "$no_memory_for_hint" ]; then
      passed=$((passed + 1))
      missed=$((missed + 1))
    else
      failed=$((failed + 1))
      echo "refused: $* < $document: with growth $number refused it ended with $status and told: $(cat "$work/err")"
    fi
    number=$((number + 1))
  done
  if [ "$ever" != 2 ] || [ "$missed" = 0 ]; then
    failed=$((failed + 1))
    echo "refused: $* < $document: it ends with $ever, and memory for the hint was never wanting"
  fi
}

# refuse_all DOCUMENT WORDS..: refuses each call of each kind.
refuse_all() {
  answer "$@"
  refuse GROWTH 4 "$@"
  refuse READ 5 "$@"
  refuse WRITE 5 "$@"
}

# refuse_growth DOCUMENT WORDS..: refuses each growth.
refuse_growth() {
  answer "$@"
  refuse GROWTH 4 "$@"
}

refuse_all examples/one-equal-file.json check
refuse_all examples/cut-alone.json certify
refuse_all examples/scenarios/conflict.json run
STREAMED=yes refuse_all examples/rows/file-missing-in-store.jsonl rows
STREAMED=yes refuse_all examples/rows/same-bytes-concurrent-versions.jsonl rows --firm
STREAMED=yes refuse_all examples/rows/file-missing-in-store.jsonl rows --explain
STREAMED=yes refuse_all examples/rows/same-bytes-concurrent-versions.jsonl rows --firm --explain
STREAMED=yes refuse_all examples/rows/same-bytes-concurrent-versions.jsonl rows --converge
STREAMED=yes refuse_all examples/rows/same-bytes-concurrent-versions.jsonl rows --converge --explain
# Without memory nothing is said of an old file in a view, where its deletion is known everywhere else.
for words in check firm converge certify 'certify --partial' explain 'explain --firm' 'explain --json' 'explain --firm --json' \
  'check --certify' 'firm --certify' 'explain --certify' 'explain --certify --json' 'explain --certify --firm' 'explain --converge' 'explain --converge --json'; do
  # shellcheck disable=SC2086 # words are several
  refuse_growth examples/old-file-in-a-view.json $words
done
refuse_growth examples/local-changes-everywhere.json certify --partial
refuse_growth examples/scenarios/a-file-is-taken-over.json run
refuse_growth examples/scenarios/a-file-is-taken-over.json run --document
no_memory_for_hint="where the document is at fault wasn't found, for want of memory"
printf '{"version":1,"stesp":[]}' > "$work/misspelt"
for words in check firm converge certify 'certify --partial' explain 'explain --firm' 'explain --json' 'check --certify' \
  'firm --certify' 'explain --certify' 'explain --certify --firm' 'explain --converge' run 'run --document' 'run --turns 1' \
  'run --document --turns 1'; do
  # shellcheck disable=SC2086 # words are several
  miss_hint "$work/misspelt" $words
done
for document in scenarios/a-file-is-taken-over scenarios/conflict scenarios/revert scenarios/override old-file-in-a-view \
  ahead-in-three-ways; do
  try_again "examples/$document.json"
done
# Three blocks for two workers.
head -c 262145 /dev/zero > "$work/zeros"
try_again "$work/zeros"
cut_off examples/one-equal-file.json check
cut_off examples/rows/file-missing-in-store.jsonl rows
REFUSE_WITH=interruption refuse READ 5 examples/one-equal-file.json check
REFUSE_WITH=interruption refuse WRITE 5 examples/one-equal-file.json check
REFUSE_WITH=nothing refuse WRITE 5 examples/one-equal-file.json check
for bytes in 1 2 3 50; do
  in_pieces "$bytes" examples/one-equal-file.json check
  in_pieces "$bytes" examples/rows/in-step.jsonl rows
done

echo "$passed passed, $failed failed"
[ "$failed" = 0 ] && [ "$passed" -gt 0 ]
