package render

import (
	"fmt"
	"strings"

	"syncthing-audit/flags"
)

const zsh = `#compdef syncthing-audit
# Completion of syncthing-audit for zsh: put this file into a folder of $fpath.
%s
_syncthing-audit() {
  local -a commands=(
%s  )
  local -a kinds=(%s)
  if ((CURRENT == 2)); then
    _describe 'command' commands
    _values 'option' %s
    return
  fi
  local command=$words[2]
  shift words
  ((CURRENT--))
  case $command in
%s  esac
}

_syncthing-audit "$@"
`

// What zsh completes behind a flag or a command.
var actionsOfZsh = map[flags.Takes]string{
	flags.Word:      "",
	flags.File:      "_files",
	flags.Directory: "_files -/",
	flags.OfKinds:   "_values -s , kind $kinds",
	flags.Parts:     `_files -g "*.part"`,
	flags.Machines:  `_alternative "hosts:machine:_hosts -S:" "files:home:_files -/"`,
}

// Zsh gives the completion for zsh.
func Zsh(all *flags.All) string {
	commands, options, cases := "", []string{}, ""
	for _, command := range all.Commands {
		commands += "    " + quoted(command.Name+":"+command.Short) + "\n"
		cases += casesOfZsh(all, &command)
	}
	for _, flag := range alone {
		options = append(options, quoted(fmt.Sprintf("%s[%s]", flag.name, flag.short)))
	}
	return fmt.Sprintf(zsh, generated, commands, strings.Join(all.NamesOfKinds(), " "), strings.Join(options, " "), cases)
}

// casesOfZsh gives what completes a command's flags, and what stands behind it.
func casesOfZsh(all *flags.All, command *flags.Command) string {
	specs := []string{"'(- *)--help[tell how to use the program]'"}
	for _, flag := range all.OfCommand(command.Name) {
		specs = append(specs, specOfZsh(&flag))
	}
	if command.Behind != flags.Nothing {
		specs = append(specs, quoted(fmt.Sprintf("*:%s:%s", command.Behind, actionsOfZsh[command.Behind])))
	} else {
		specs = append(specs, "'*:word:'")
	}
	return fmt.Sprintf("    %s)\n      _arguments %s\n      ;;\n", command.Name, strings.Join(specs, " \\\n        "))
}

// specOfZsh gives a flag as _arguments reads it.
func specOfZsh(flag *flags.Flag) string {
	spec := ""
	if len(flag.Apart) > 0 {
		spec = "(" + strings.Join(flag.Apart, " ") + ")"
	}
	if flag.Repeats {
		spec += "*"
	}
	spec += fmt.Sprintf("%s[%s]", flag.Name, flag.Short)
	if flag.Takes != flags.Nothing {
		spec += fmt.Sprintf(":%s:%s", strings.ToLower(flag.Word), actionsOfZsh[flag.Takes])
	}
	return quoted(spec)
}
