#!/usr/bin/env bash
# release.sh PROGRAM: the release is that of the sources here, answers, and is to the byte what the gate has built, PROGRAM,
# where that has the release's toolchain. The last line is 'N passed, M failed', or 'N passed, M failed, K skipped'.
set -euo pipefail
program=$(readlink -m "$1")
top=$(dirname "$(dirname "$(readlink -f "$0")")")
. "$top/tools/release/lib.sh"
passed=0
failed=0
skipped=0
work=$(mktemp -d)
trap 'rm -rf "$work"' EXIT

# expect WHAT COMMAND..: counts whether the command holds.
expect() {
  local what=$1
  shift
  if "$@"; then
    passed=$((passed + 1))
  else
    failed=$((failed + 1))
    echo "release: $what"
  fi
}

if ! [ -x "$release/syncaudit" ] || ! [ -f "$release/manifest" ]; then
  echo "release: there is no tools/release/syncaudit with its manifest: tools/release/make makes them"
  echo "0 passed, 1 failed"
  exit 1
fi
expect "tools/release/syncaudit has the sha256 $(sum_of "$release/syncaudit"), and tools/release/manifest tells $(told program "$release")" \
  is_whole "$release"
digest=$(sources_digest)
expect "the sources have the digest $digest, and tools/release/manifest tells $(told sources "$release"): tools/release/make makes a new one" \
  is_of "$digest" "$release"

# ---- what it answers

named="$(told version "$release") ($(told date "$release"))"
answer=$("$release/syncaudit" --version 2>&1 || true)
expect "the release says that it is '$answer', and not 'syncaudit $named'" [ "$answer" = "syncaudit $named" ]
expect "the man page doesn't tell the release's version and date" \
  grep -qF "\"$(told date "$release")\" \"syncaudit $(told version "$release")\"" "$top/docs/syncaudit.1"
answer=$("$release/syncaudit" check < "$top/examples/one-equal-file.json" | head -n 1 || true)
expect "the release answers '$answer' to an equal file, and not 'settled'" [ "$answer" = settled ]

# ---- what the gate has built

if [ "$(told toolchain "$release")" != "$(rt version)" ]; then
  skipped=1
  echo "release: SKIPPED: it was built by '$(told toolchain "$release")', and '$(rt version)' is here, so it isn't compared"
elif ! is_of "$digest" "$release"; then
  skipped=1
  echo "release: SKIPPED: it is of other sources than what was built here, so it isn't compared"
else
  strip_program "$program" "$work/syncaudit"
  expect "what was built here has the sha256 $(sum_of "$work/syncaudit"), and the release $(sum_of "$release/syncaudit")" \
    cmp -s "$work/syncaudit" "$release/syncaudit"
fi

counts="$passed passed, $failed failed"
[ "$skipped" = 0 ] || counts="$counts, $skipped skipped"
echo "$counts"
[ "$failed" = 0 ]
