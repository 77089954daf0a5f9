#!/usr/bin/env bash
# around.sh PROGRAM: compares what stands around the built program with it: the man page and the completions with its
# help, those of syncthing-audit with its man page, and the schemas with one another. Gives it a silent pipe. And tries the scripts that run, build and
# install it (around/). The last line is 'N passed, M failed'.
set -euo pipefail
program=$(readlink -m "$1")
cd "$(dirname "$0")/.."
passed=0
failed=0
work=$(mktemp -d)
trap 'rm -rf "$work"' EXIT

# expect WHAT COMMAND..: counts whether the command holds.
expect() {
  local what=$1
  shift
  if "$@"; then
    passed=$((passed + 1))
  else
    failed=$((failed + 1))
    echo "around: $what"
  fi
}

if [ ! -x "$program" ]; then
  echo "around: there is no program $1"
  echo "0 passed, 1 failed"
  exit 1
fi

# ---- the man page and the completions

help_of() {
  "$program" "$@" --help 2>&1 || true
}

# The subcommands that the help lists, but help itself.
helped() {
  help_of | sed -n '/^Commands:/,/^$/s/^  \([a-z]*\) .*/\1/p' | grep -vx help
}

# The lines of the man page's synopsis.
synopsis() {
  sed -n '/^\.SH SYNOPSIS/,/^\.SH DESCRIPTION/p' docs/syncaudit.1 | sed '/^\.SH/d; s/^\.[BI] //' |
    awk '$0 == ".br" { print line; line = ""; next } { line = line (line ? " " : "") $0 } END { print line }'
}

# The subcommands of the synopsis.
described() {
  synopsis | cut -d ' ' -f 2
}

# begins_synopsis TEXT: a line of the synopsis is this text, or goes on after it.
begins_synopsis() {
  synopsis | awk -v text="$1" '$0 == text || index($0, text " ") == 1 { found = 1 } END { exit !found }'
}

# The usage line of a subcommand's help.
usage_of() {
  help_of "$1" | sed -n 's/^Usage: //p'
}

# The statuses of the man page, as the help has them.
statuses() {
  sed -n '/^\.SH EXIT STATUS/,/^\.PP/p' docs/syncaudit.1 |
    awk '/^\.B [0-9]/ { number = $2; getline; all = all (all ? ", " : "") number " " $0 } END { print "Exit status: " all }'
}

# is_one_of WORD WORDS..: the word is among the others.
is_one_of() {
  local word=$1
  shift
  printf '%s\n' "$@" | grep -qx -- "$word"
}

# has WORD FILE: the word stands in the file.
has() {
  grep -qw -- "$1" "$2"
}

# offers FLAG FILE: the flag stands in the file, as its shell writes it.
offers() {
  grep -qE -- "(--|-l )$1([] []|$)" "$2"
}

# The flags in the usage line of a subcommand's help, with a value or without.
flags_of() {
  usage_of "$1" | grep -oE -- '\[--[a-z]+( [A-Z]+)?\]' | sed 's/^\[--//; s/[] ].*//' || true
}

# Each flag that some subcommand has.
flags=$(for command in $(helped); do flags_of "$command"; done | sort -u)

# takes COMMAND FLAG: the subcommand takes the flag. Standard input is no document, which it refuses then.
takes() {
  local value=()
  [ "$2" != turns ] || value=(0)
  status=0
  "$program" "$1" "--$2" "${value[@]}" < /dev/null > /dev/null 2>&1 || status=$?
  [ "$status" = 2 ]
}

# lacks COMMAND FLAG: the subcommand knows no such flag.
lacks() {
  ! takes "$@" && [ "$status" = 3 ]
}

# begins TEXT BEGIN: the text begins so.
begins() {
  [ "${1#"$2"}" != "$1" ]
}

for command in $(helped); do
  expect "the usage line of '$command' is another's: '$(usage_of "$command")'" begins "$(usage_of "$command") " "syncaudit $command "
  expect "the man page's synopsis has no '$(usage_of "$command")'" begins_synopsis "$(usage_of "$command")"
  for flag in $flags; do
    if flags_of "$command" | grep -qx -- "$flag"; then
      expect "'$command' doesn't take '--$flag', which its usage line has" takes "$command" "$flag"
    else
      expect "'$command' takes '--$flag', which its usage line doesn't have" lacks "$command" "$flag"
    fi
  done
  for file in docs/completions/{syncaudit.bash,_syncaudit,syncaudit.fish}; do
    expect "$file has no '$command'" has "$command" "$file"
  done
  # Its flags stand in each of them too.
  for flag in $(flags_of "$command"); do
    for file in docs/syncaudit.1 docs/completions/{syncaudit.bash,_syncaudit,syncaudit.fish}; do
      expect "$file has no '--$flag'" offers "$flag" "$file"
    done
  done
done
expect "no flag in the program's help" [ "$(for command in check firm converge certify explain rows run; do flags_of "$command"; done | paste -sd ' ')" = 'certify certify partial json firm converge certify firm converge explain document turns' ]
for command in $(described); do
  expect "the program has no '$command', which the man page describes" is_one_of "$command" $(helped)
done
expect "no subcommand in the program's help" [ -n "$(helped)" ]
# The help's lines are as long as the terminal allows.
expect "the man page's statuses aren't those of 'check --help': $(statuses)" \
  grep -qF "$(statuses)" <(help_of check | tr '\n' ' ')

. tests/around/completing.sh

# ---- words that aren't followed, while nothing comes on standard input

mkfifo "$work/silent"
exec 9<> "$work/silent"
for words in '' --help --version 'check --help' jump 'check now'; do
  status=0
  # shellcheck disable=SC2086 # the words are several
  timeout 20 "$program" $words <&9 > "$work/output" 2> "$work/error" || status=$?
  expect "'syncaudit $words' waits for standard input, or ends with $status" [ "$status" = 3 ]
done
exec 9>&-

# ---- the schemas

# names_another: a schema names another file.
names_another() {
  grep -qE '"\$ref": "[^#]' docs/*.schema.json
}

for schema in docs/*.schema.json; do
  id=urn:syncaudit:$(basename "$schema" .schema.json)
  expect "the \$id of $schema isn't $id" grep -qF "\"\$id\": \"$id\"" "$schema"
done
expect "a schema names another one" eval '! names_another'
# What two of them define by one name is the same in both.
if command -v python3 > /dev/null 2>&1; then
  expect "what the explanation's schema takes over isn't what the check document's has" python3 -c '
import json
check, explanation = (json.load(open(f"docs/{name}.schema.json"))["$defs"] for name in ("check-document", "explanation"))
both = check.keys() & explanation.keys()
assert "record" in both and all(check[name] == explanation[name] for name in both)'
fi

# ---- the scripts

. tests/around/place.sh
. tests/around/choosing.sh
. tests/around/waiting.sh
. tests/around/building.sh
. tests/around/installing.sh

echo "$passed passed, $failed failed"
[ "$failed" = 0 ]
