# Completion of syncthing-audit for bash: source this file, or put it into share/bash-completion/completions as
# 'syncthing-audit'.
# The program's flags.txt makes this file (go run syncthing-audit/flags/write): change it there.

# The flags of each command.
_syncthing_audit_flags() {
  case $1 in
    part) echo '--home --observer --data --map --folder --names --slice -o --show --about --begin --end --heed-input --progress --tokens --rescan --still --sign --paths --strict --leave-out --jobs --help' ;;
    check) echo '--home --observer --data --map --folder --names --slice --allowed-signers --strict --leave-out --lines --json --script --history --bytes --syncaudit --jobs --help' ;;
    run) echo '--observer --data --map --folder --names --slice --rescan --still --remote-program --dry-run --paths --strict --leave-out --lines --json --script --history --syncaudit --jobs --help' ;;
    observe) echo '--home --init --records --budget --passwords --rest --every --listen --disk --folder --names --slice --rescan --still --strict --leave-out --lines --json --script --history --into --syncaudit --jobs --help' ;;
    disk) echo '--after --block-size --config --marker --names --slice -o --sign --paths --jobs --help' ;;
    watch) echo '--still --syncaudit --jobs --help' ;;
    report) echo '--home --observer --data --map --folder --names --slice --allowed-signers --strict --leave-out --html --watch --history --syncaudit --jobs --help' ;;
    export) echo '--home --observer --data --map --folder --names --slice --allowed-signers --strict --leave-out --bytes --into --jobs --help' ;;
    sum) echo '--lines --json --script --help' ;;
    find) echo '--folder --history --jobs --help' ;;
    wanted) echo '--folder --history --help' ;;
  esac
}

# Kinds with commas between: the last one is completed.
_syncthing_audit_kinds() {
  local kinds='ignored unreadable changing special names targets records rescan large absent encrypted unshared moment unknown'
  local before=
  [[ $1 != *,* ]] || before=${1%,*},
  compgen -P "$before" -W "$kinds" -- "${1##*,}"
}

_syncthing_audit() {
  local word=${COMP_WORDS[COMP_CWORD]}
  local before=${COMP_WORDS[COMP_CWORD - 1]}
  local command=${COMP_WORDS[1]}
  COMPREPLY=()
  if [ "$COMP_CWORD" = 1 ]; then
    mapfile -t COMPREPLY < <(compgen -W 'part check run observe disk watch report export sum find wanted --about --help --version' -- "$word")
    return
  fi
  case $before in
    --home | --data | --script | --history | --into) mapfile -t COMPREPLY < <(compgen -d -- "$word") ;;
    --passwords | --rest | --disk | --config | -o | --show | --tokens | --sign | --allowed-signers | --html | --watch | --syncaudit) mapfile -t COMPREPLY < <(compgen -f -- "$word") ;;
    --leave-out) mapfile -t COMPREPLY < <(_syncthing_audit_kinds "$word") ;;
    --budget | --every | --observer | --listen | --after | --block-size | --marker | --map | --folder | --names | --slice | --still | --remote-program | --jobs) ;;
    *)
      if [[ $word == -* ]]; then
        mapfile -t COMPREPLY < <(compgen -W "$(_syncthing_audit_flags "$command")" -- "$word")
        return
      fi
      case $command in
        run | sum | find) mapfile -t COMPREPLY < <(compgen -d -- "$word") ;;
        check | report | export) mapfile -t COMPREPLY < <(compgen -f -X '!*.part' -- "$word"; compgen -d -- "$word") ;;
        watch) mapfile -t COMPREPLY < <(compgen -f -- "$word") ;;
      esac
      ;;
  esac
}
complete -o filenames -F _syncthing_audit syncthing-audit
