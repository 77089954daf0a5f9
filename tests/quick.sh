#!/usr/bin/env bash
# quick.sh: what ./test --quick runs: the scripts that need no other program than the release, and Go's tests where Go and
# Syncthing's packages are there. Nothing is proved or built by the kit. The last line says what it left out.
set -euo pipefail
cd "$(dirname "$0")/.."
if [ $# != 0 ]; then
  echo "usage: ./test --quick" >&2
  exit 2
fi
top=$PWD
. tools/release/put.sh
. tests/keep.sh
program=$top/tools/release/syncaudit
logs=$(mktemp -d)
trap 'rm -rf "$logs"' EXIT

# go_tests: Go's tests of all packages, each of which counts as one.
go_tests() {
  if ! has_exporter; then
    echo "SKIPPED: Go's tests, since Go or Syncthing's packages aren't there"
    echo "0 passed, 0 failed, 1 skipped"
    return
  fi
  local told failed passed
  told=$(SYNCAUDIT=$program GO111MODULE=off GOPATH=$top/auditor:$packages go test -count=1 syncthing-audit/... 2>&1 || true)
  grep -v '^ok\|no test files' <<< "$told" || true
  passed=$(grep -c '^ok' <<< "$told" || true)
  failed=$(grep -c '^FAIL.*syncthing-audit' <<< "$told" || true)
  echo "$passed passed, $failed failed"
  [ "$failed" = 0 ]
}

parts=(rows.py pieces.sh steps.py turns.py around.sh memory.py compare.sh reference.py pages.py)
for part in "${parts[@]}"; do
  keep "$part" "tests/$part" "$program" > "$logs/$part.told" 2>&1 &
done
keep fuzz.py tests/fuzz.py "$program" --seconds 20 > "$logs/fuzz.py.told" 2>&1 &
keep go go_tests > "$logs/go.told" 2>&1 &
wait
parts+=(fuzz.py go)
for part in "${parts[@]}"; do
  echo "== $part"
  cat "$logs/$part.told"
done
echo "test: took $((SECONDS / 60)) min $((SECONDS % 60)) s"
status=0
tests/add_up.py "$logs" "${parts[@]}" || status=1
echo "left out: every proof and wrong body, the tests in Rust, plain.sh, refused.sh, torn.sh, release.sh, real devices; the release" \
  "answered, and not what the sources here would build"
exit "$status"
