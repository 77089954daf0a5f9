# shellcheck shell=sh
# is_turns TEXT: whether 'run --turns' takes this as its number.
is_turns() {
  case ${1#+} in
    '' | *[!0-9]*) return 1 ;;
  esac
  # A shell refuses what is too long for its own numbers, and says so.
  [ "${1#+}" -le 1000000 ] 2> /dev/null
}

# reads_document WORDS..: whether the program reads a document where it is called with these words: a subcommand, then flags
# of its own, each once, and '--' last or not at all. Runs in a shell of its own, whose variables are nobody else's.
reads_document() (
  command=${1-}
  case $command in
    check | firm | converge | certify | explain | rows | run) shift ;;
    *) exit 1 ;;
  esac
  met=
  while [ $# -gt 0 ]; do
    flag=${1%%=*}
    case "$met " in
      *" $flag "*) exit 1 ;;
    esac
    met="$met $flag"
    case "$command $1" in
      'check --certify' | 'firm --certify' | 'certify --partial' | 'run --document') ;;
      'rows --firm' | 'rows --explain' | 'rows --converge') ;;
      'explain --json' | 'explain --firm' | 'explain --converge' | 'explain --certify') ;;
      'run --turns='*) is_turns "${1#--turns=}" || exit 1 ;;
      'run --turns')
        is_turns "${2-}" || exit 1
        shift
        ;;
      "$command --") [ $# = 1 ] || exit 1 ;;
      *) exit 1 ;;
    esac
    shift
  done
)

# tell_waiting WORDS..: says at a terminal that the program waits for a document, where these words have it do so. Whoever
# forgets '<' else sees nothing at all.
tell_waiting() {
  if [ -t 0 ] && [ -t 2 ] && reads_document "$@"; then
    echo "syncaudit: waiting for a document on standard input; 'syncaudit $* < FILE' reads one" >&2
  fi
}
