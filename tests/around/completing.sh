# shellcheck shell=bash
# The completions of syncthing-audit beside its man page, which its own tests compare with its help; and what bash completes.

page=auditor/syncthing-audit.1
of_audit=(auditor/completions/{syncthing-audit.bash,_syncthing-audit,syncthing-audit.fish})

# The commands of the man page's synopsis.
audit_commands() {
  sed -n 's/^\.B syncthing-audit \([a-z]*\)$/\1/p' "$page" | awk '!seen[$0]++'
}

# The flags of its options, without their dashes.
audit_flags() {
  sed -n '/^\.SH OPTIONS/,/^\.SH EXIT/s/^\.B[I]* \([-\\a-z]*\).*/\1/p' "$page" | tr -d '\\' | sed 's/^-*//'
}

# The kinds of --leave-out.
audit_kinds() {
  sed -n '/^leaves out these kinds/,/^\.RE/s/^\.IP //p' "$page"
}

expect "the man page of syncthing-audit has other commands: $(audit_commands | paste -sd ' ')" \
  [ "$(audit_commands | paste -sd ' ')" = 'part check run watch report observe disk export sum find wanted' ]
expect "too few flags in the man page of syncthing-audit: $(audit_flags | paste -sd ' ')" [ "$(audit_flags | wc -l)" -ge 10 ]
expect "not fourteen kinds in the man page of syncthing-audit" [ "$(audit_kinds | sort -u | wc -l)" = 14 ]
for file in "${of_audit[@]}"; do
  for word in $(audit_commands) $(audit_kinds); do
    expect "$file has no '$word'" has "$word" "$file"
  done
  for flag in $(audit_flags); do
    expect "$file has no flag '$flag'" grep -qE -- "(--|-l |-s |[ '-]-)$flag([] ['*:]|$)" "$file"
  done
done

# completed WORD..: what bash completes behind these words, the last of which is begun.
completed() {
  bash -c '
    . auditor/completions/syncthing-audit.bash
    COMP_WORDS=(syncthing-audit "$@")
    COMP_CWORD=$#
    _syncthing_audit
    printf "%s\n" "${COMPREPLY[@]}" | sort | paste -sd " "' completed "$@"
}

mkdir "$work/homes"
touch "$work/laptop.part" "$work/laptop.txt"
while IFS='|' read -r words expected; do
  # shellcheck disable=SC2086 # each is a word; an empty one is written as ''
  eval "set -- $words"
  expect "bash completes '$words' as '$(completed "$@")', and not as '$expected'" [ "$(completed "$@")" = "$expected" ]
done << END
''|--about --help --version check disk export find observe part report run sum wanted watch
ch|check
part -|--about --begin --data --end --folder --heed-input --help --home --jobs --leave-out --map --names --observer --paths --progress --rescan --show --sign --slice --still --strict --tokens -o
run --re|--remote-program --rescan
observe --re|--records --rescan --rest
run $work/ho|$work/homes
check --l|--leave-out --lines
export --in|--into
sum -|--help --json --lines --script
watch -|--help --jobs --still --syncaudit
sum --leave|
check --leave-out a|absent
check --leave-out absent,un|absent,unknown absent,unreadable absent,unshared
check $work/l|$work/laptop.part
check --folder d|
part --home $work/ho|$work/homes
END

# What other shells make of theirs, where they are installed.
if command -v zsh > /dev/null 2>&1; then
  expect "zsh can't read auditor/completions/_syncthing-audit" zsh -n auditor/completions/_syncthing-audit
fi
if command -v fish > /dev/null 2>&1; then
  offered=$(fish --no-config -c "source auditor/completions/syncthing-audit.fish; complete -C 'syncthing-audit check --l'" 2>&1 | cut -f 1 | sort | paste -sd ' ')
  expect "fish completes 'check --l' as '$offered'" [ "$offered" = '--leave-out --lines' ]
  offered=$(fish --no-config -c "source auditor/completions/syncthing-audit.fish; complete -C 'syncthing-audit '" 2>&1 | cut -f 1 | sort | paste -sd ' ')
  expect "fish completes commands as '$offered'" [ "$offered" = 'check disk export find observe part report run sum wanted watch' ]
fi
