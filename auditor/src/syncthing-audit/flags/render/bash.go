package render

import (
	"fmt"
	"strings"

	"syncthing-audit/flags"
)

const bash = `# Completion of syncthing-audit for bash: source this file, or put it into share/bash-completion/completions as
# 'syncthing-audit'.
%s
# The flags of each command.
_syncthing_audit_flags() {
  case $1 in
%s  esac
}

# Kinds with commas between: the last one is completed.
_syncthing_audit_kinds() {
  local kinds='%s'
  local before=
  [[ $1 != *,* ]] || before=${1%%,*},
  compgen -P "$before" -W "$kinds" -- "${1##*,}"
}

_syncthing_audit() {
  local word=${COMP_WORDS[COMP_CWORD]}
  local before=${COMP_WORDS[COMP_CWORD - 1]}
  local command=${COMP_WORDS[1]}
  COMPREPLY=()
  if [ "$COMP_CWORD" = 1 ]; then
    mapfile -t COMPREPLY < <(compgen -W '%s' -- "$word")
    return
  fi
  case $before in
    %s) mapfile -t COMPREPLY < <(compgen -d -- "$word") ;;
    %s) mapfile -t COMPREPLY < <(compgen -f -- "$word") ;;
    %s) mapfile -t COMPREPLY < <(_syncthing_audit_kinds "$word") ;;
    %s) ;;
    *)
      if [[ $word == -* ]]; then
        mapfile -t COMPREPLY < <(compgen -W "$(_syncthing_audit_flags "$command")" -- "$word")
        return
      fi
      case $command in
        %s) mapfile -t COMPREPLY < <(compgen -d -- "$word") ;;
        %s) mapfile -t COMPREPLY < <(compgen -f -X '!*.part' -- "$word"; compgen -d -- "$word") ;;
        %s) mapfile -t COMPREPLY < <(compgen -f -- "$word") ;;
      esac
      ;;
  esac
}
complete -o filenames -F _syncthing_audit syncthing-audit
`

// Bash gives the completion for bash.
func Bash(all *flags.All) string {
	cases, words := "", namesOfCommands(all)
	for _, command := range all.Commands {
		cases += fmt.Sprintf("    %s) echo '%s --help' ;;\n", command.Name, strings.Join(namesOf(all.OfCommand(command.Name)), " "))
	}
	for _, flag := range alone {
		words = append(words, flag.name)
	}
	pattern := func(names []string) string { return strings.Join(names, " | ") }
	return fmt.Sprintf(bash, generated, cases, strings.Join(all.NamesOfKinds(), " "), strings.Join(words, " "),
		pattern(taking(all.Flags, flags.Directory)), pattern(taking(all.Flags, flags.File)), pattern(taking(all.Flags, flags.OfKinds)), pattern(taking(all.Flags, flags.Word)),
		pattern(commandsBehind(all, flags.Directory, flags.Machines)), pattern(commandsBehind(all, flags.Parts)), pattern(commandsBehind(all, flags.File)))
}
