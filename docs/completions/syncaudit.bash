# Completion of syncaudit for bash: source this file, or put it into share/bash-completion/completions as 'syncaudit'.
_syncaudit() {
  local word=${COMP_WORDS[COMP_CWORD]}
  local before=${COMP_WORDS[COMP_CWORD - 1]}
  COMPREPLY=()
  if [ "$before" = '<' ]; then
    mapfile -t COMPREPLY < <(compgen -f -X '!*.json' -- "$word"; compgen -f -X '!*.jsonl' -- "$word"; compgen -d -- "$word")
  elif [ "$COMP_CWORD" = 1 ]; then
    mapfile -t COMPREPLY < <(compgen -W 'check firm converge certify explain rows run help --help --version' -- "$word")
  elif [ "$COMP_CWORD" = 2 ] && [ "$before" = help ]; then
    mapfile -t COMPREPLY < <(compgen -W 'check firm converge certify explain rows run' -- "$word")
  elif [ "$COMP_CWORD" = 2 ] && { [ "$before" = check ] || [ "$before" = firm ]; }; then
    mapfile -t COMPREPLY < <(compgen -W '--certify --help' -- "$word")
  elif [ "$COMP_CWORD" = 2 ] && [ "$before" = certify ]; then
    mapfile -t COMPREPLY < <(compgen -W '--partial --help' -- "$word")
  elif [ "$COMP_CWORD" = 2 ] && [ "$before" = explain ]; then
    mapfile -t COMPREPLY < <(compgen -W '--json --firm --converge --certify --help' -- "$word")
  elif [ "$COMP_CWORD" = 2 ] && [ "$before" = rows ]; then
    mapfile -t COMPREPLY < <(compgen -W '--firm --converge --explain --help' -- "$word")
  elif [ "$COMP_CWORD" = 2 ] && [ "$before" = run ]; then
    mapfile -t COMPREPLY < <(compgen -W '--document --turns --help' -- "$word")
  elif [ "$COMP_CWORD" = 2 ]; then
    mapfile -t COMPREPLY < <(compgen -W '--help' -- "$word")
  fi
}
complete -F _syncaudit syncaudit
