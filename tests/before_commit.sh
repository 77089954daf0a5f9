#!/usr/bin/env bash
# before_commit.sh: looks at the files that are to be committed, by what is there of gofmt, go vet, rt, shellcheck and
# pyflakes. To have git call it: ln -s ../../tests/before_commit.sh .git/hooks/pre-commit
set -euo pipefail
cd "$(git rev-parse --show-toplevel)"
failed=0

# staged PATTERN..: the files of these patterns that are to be committed.
staged() {
  git diff --cached --name-only --diff-filter=ACMR -- "$@"
}

# look TOOL WHAT COMMAND..: runs the command, where the tool is there, and counts whether it finds nothing.
look() {
  local tool=$1 what=$2
  shift 2
  if ! command -v "$tool" > /dev/null 2>&1; then
    echo "before_commit: $tool isn't there, so $what wasn't looked at" >&2
  elif ! "$@"; then
    echo "before_commit: $what" >&2
    failed=1
  fi
}

# is_formatted FILE..: gofmt would leave these as they are.
is_formatted() {
  local changed
  changed=$(gofmt -l "$@")
  [ -z "$changed" ] || { echo "$changed"; return 1; }
}

mapfile -t go < <(staged '*.go')
mapfile -t shell < <(staged '*.sh' ':!tests/around/' test install package syncaudit .ci/run)
# around.sh sources these, and has what they refer to
[ -z "$(staged tests/around/)" ] || shell+=(tests/around.sh)
mapfile -t python < <(staged '*.py')
mapfile -t rattle < <(staged '*.rt' '*.antt')
[ ${#go[@]} = 0 ] || look gofmt "gofmt would change Go files" is_formatted "${go[@]}"
[ ${#shell[@]} = 0 ] || look shellcheck "shellcheck finds faults" shellcheck -x -e SC2317 "${shell[@]}"
[ ${#python[@]} = 0 ] || look pyflakes3 "pyflakes finds faults" pyflakes3 "${python[@]}"
if [ ${#rattle[@]} != 0 ] && command -v rt > /dev/null 2>&1; then
  printf '%s\n' "${rattle[@]}" | cut -d / -f 1,2 | sort -u | while read -r crate; do
    (cd "$crate" && rt fmt > /dev/null)
  done
  git diff --quiet -- "${rattle[@]}" || { echo "before_commit: rt fmt has changed files: add them" >&2; failed=1; }
fi
long=$(git diff --cached --check || true)
[ -z "$long" ] || { echo "$long" >&2; failed=1; }
exit "$failed"
