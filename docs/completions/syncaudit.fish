# Completion of syncaudit for fish: put this file into share/fish/vendor_completions.d or ~/.config/fish/completions.
set -l commands check firm converge certify explain rows run
complete -c syncaudit -f
complete -c syncaudit -n "not __fish_seen_subcommand_from $commands help" -a check -d 'Audit the check document on standard input'
complete -c syncaudit -n "not __fish_seen_subcommand_from $commands help" -a firm -d 'Ask whether the check document is firm too'
complete -c syncaudit -n "not __fish_seen_subcommand_from $commands help" -a converge -d 'Ask whether the cut comes right by itself'
complete -c syncaudit -n "not __fish_seen_subcommand_from $commands help" -a certify -d 'Write the check document with the certificate of its cut'
complete -c syncaudit -n "not __fish_seen_subcommand_from $commands help" -a explain -d 'Tell all that keeps the check document from being settled'
complete -c syncaudit -n "not __fish_seen_subcommand_from $commands help" -a rows -d 'Audit a stream of rows, one for each name'
complete -c syncaudit -n "not __fish_seen_subcommand_from $commands help" -a run -d 'Make the steps of a scenario and audit where they lead'
complete -c syncaudit -n "not __fish_seen_subcommand_from $commands help" -a help -d 'Tell how to use the program'
complete -c syncaudit -n "__fish_seen_subcommand_from help; and not __fish_seen_subcommand_from $commands" -a "$commands"
complete -c syncaudit -n "__fish_seen_subcommand_from check firm explain" -l certify -d 'Audit the cut under the certificate that is made of it'
complete -c syncaudit -n "__fish_seen_subcommand_from certify" -l partial -d 'Leave out the names that have no winner'
complete -c syncaudit -n "__fish_seen_subcommand_from explain" -l json -d 'Write one JSON document'
complete -c syncaudit -n "__fish_seen_subcommand_from explain" -l firm -d 'Tell all that keeps it from being firm'
complete -c syncaudit -n "__fish_seen_subcommand_from rows" -l firm -d 'Ask whether the cut is firm'
complete -c syncaudit -n "__fish_seen_subcommand_from rows" -l converge -d 'Ask whether the cut converges'
complete -c syncaudit -n "__fish_seen_subcommand_from rows" -l explain -d 'Tell all that fails at a name'
complete -c syncaudit -n "__fish_seen_subcommand_from explain" -l converge -d 'Tell all that keeps it from converging'
complete -c syncaudit -n "__fish_seen_subcommand_from run" -l document -d 'Write the check document of the end'
complete -c syncaudit -n "__fish_seen_subcommand_from run" -l turns -x -d 'Have threads run the cluster after the steps'
complete -c syncaudit -s h -l help -d 'Tell how to use the program or the command'
complete -c syncaudit -n "not __fish_seen_subcommand_from $commands help" -s V -l version -d 'Tell its version'
