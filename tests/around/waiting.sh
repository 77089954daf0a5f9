# shellcheck shell=bash
# What ./syncaudit says at a terminal where the program waits for a document: whoever forgets '<' else sees nothing at all.

release_of release
cat > "$work/at_terminal.py" << 'END'
"""Runs a command whose standard input is a terminal, and whose standard error is one too unless it is to be a pipe; prints
what it writes to standard error.  at_terminal.py terminal|pipe PATH COMMAND.."""
import os, pty, subprocess, sys
terminal, end = pty.openpty()
apart = sys.argv[1] == "pipe"
ran = subprocess.Popen(sys.argv[3:], stdin=end, stdout=subprocess.DEVNULL, stderr=subprocess.PIPE if apart else end,
                       env={**os.environ, "PATH": sys.argv[2]})
os.close(end)
if apart:
    sys.stdout.write(ran.communicate()[1].decode())
else:
    told = b""
    try:
        while data := os.read(terminal, 4096):
            told += data
    except OSError:  # the terminal has no other end any more
        pass
    sys.stdout.write(told.decode().replace("\r\n", "\n"))
    ran.wait()
END

# at_terminal PROGRAM WHERE WORDS..: what this program says to standard error.
at_terminal() {
  local asked=$1 where=$2
  shift 2
  python3 "$work/at_terminal.py" "$where" "$work/tools" "$asked" "$@"
}

# in_each_order WORDS FLAG..: these words, and behind them none, some or all of the flags, in each order; a line each.
in_each_order() {
  local words=$1 at
  shift
  echo "$words"
  for ((at = 1; at <= $#; at++)); do
    in_each_order "$words ${!at}" "${@:1:at - 1}" "${@:at + 1}"
  done
}

# The words with which the program reads a document: each subcommand, with flags of its usage line in each order.
reading_words() {
  local command flags
  for command in $(helped); do
    mapfile -t flags < <(usage_of "$command" | grep -oE -- '--[a-z]+( N)?' | sed 's/ N$/ 3/')
    in_each_order "$command" "${flags[@]}"
  done
}

mapfile -t waits < <(
  reading_words
  reading_words | grep -e '--turns' | sed 's/--turns 3/--turns=3/'
  printf '%s\n' 'run --turns 1000000 --document' 'run --document --turns 0' 'run --turns=1000000'
)
# Words that it refuses, or to which it answers with its help.
mapfile -t refused < <(
  printf '%s\n' '' --help help jump 'jump --json' '--certify check' 'check now' 'check --certify now' 'explain --json --json' \
    'run --turns 3 now' 'run --turns' 'run --turns --document' 'run --turns many' 'run --turns 1000001' 'run --turns=' \
    'run --turns=many' 'run --turns=1000001' 'run --turns 3 --turns=3'
  for command in $(helped); do
    printf '%s\n' "help $command" "$command --help" "$command now" "$command --$command"
  done
)
expect "too few words with which the program reads: ${#waits[*]}" [ "${#waits[*]}" -ge 30 ]

# expect_waiting PROGRAM: this program says at a terminal that it waits, wherever it does, and there alone.
expect_waiting() {
  local asked=$1 words told
  command -v python3 > /dev/null 2>&1 || return 0
  for words in "${waits[@]}"; do
    # shellcheck disable=SC2086 # the words are several
    told=$(at_terminal "$asked" terminal $words)
    expect "'$asked $words' doesn't say that it waits: $told" \
      [ "$told" = "syncaudit: waiting for a document on standard input; 'syncaudit $words < FILE' reads one" ]
    # shellcheck disable=SC2086
    expect "'$asked $words' says in a pipe that it waits" [ -z "$(at_terminal "$asked" pipe $words)" ]
  done
  for words in "${refused[@]}"; do
    # shellcheck disable=SC2086
    told=$(at_terminal "$asked" terminal $words)
    expect "'$asked $words' says that it waits, and doesn't: $told" [ -z "$told" ]
  done
}

expect_waiting "$place/syncaudit"
script check
expect "the script says that it waits where a document comes: $(cat "$work/error")" is_silent

# ---- what the script takes for such words, beside the program

# script_waits WORDS..: the script takes these for words with which the program reads a document.
script_waits() {
  sh -c '. tools/release/waiting.sh; reads_document "$@"' reads_document "$@"
}

# program_reads WORDS..: the program reads a document with these words. What comes is none, which it answers by status 2.
program_reads() {
  local status=0
  "$program" "$@" < /dev/null > /dev/null 2>&1 || status=$?
  [ "$status" = 2 ]
}

# agree WORDS..: the script takes these words for what the program does with them.
agree() {
  if program_reads "$@"; then script_waits "$@"; else ! script_waits "$@"; fi
}

for words in "${waits[@]}" "${refused[@]}"; do
  # shellcheck disable=SC2086
  expect "tools/release/waiting.sh and the program differ on '$words'" agree $words
done
# Each two words behind each subcommand.
for command in $(helped); do
  for word in --certify --partial --json --firm --document --turns --turns=3 3 -- --help; do
    for other in --certify --firm --document --turns=03 +3 -- now; do
      expect "tools/release/waiting.sh and the program differ on '$command $word $other'" agree "$command" "$word" "$other"
    done
  done
done
for words in 'run --turns +3' 'run --turns 0000000000000000000000000000003' 'run --turns 18446744073709551617' 'run --turns ++3' \
  'run --turns -3' 'run --turns 3 --' 'check --' 'check -- --' --version; do
  # shellcheck disable=SC2086
  expect "tools/release/waiting.sh and the program differ on '$words'" agree $words
done
for words in '' ' 3' '3 '; do
  expect "tools/release/waiting.sh and the program differ on the turns '$words'" agree run --turns "$words"
done
