package render

import (
	"fmt"
	"strings"

	"syncthing-audit/flags"
)

const fish = `# Completion of syncthing-audit for fish: put this file into share/fish/vendor_completions.d or ~/.config/fish/completions.
%sset -l commands %s
set -l none "not __fish_seen_subcommand_from $commands"
complete -c syncthing-audit -f
`

// What fish completes behind a command.
var actionsOfFish = map[flags.Takes][]string{
	flags.File:      {"-F"},
	flags.Directory: {"-x -a '(__fish_complete_directories)'"},
	flags.Parts:     {"-a '(__fish_complete_suffix .part)'"},
	flags.Machines:  {"-x -a '(__fish_complete_user_at_hosts):' -d 'A machine'", "-a '(__fish_complete_directories)' -d 'A home'"},
}

// Fish gives the completion for fish.
func Fish(all *flags.All) string {
	text := &strings.Builder{}
	text.WriteString(fmt.Sprintf(fish, generated, strings.Join(namesOfCommands(all), " ")))
	line := func(when, what string) {
		text.WriteString(fmt.Sprintf("complete -c syncthing-audit -n \"%s\" %s\n", when, what))
	}
	for _, command := range all.Commands {
		line("$none", "-a "+command.Name+" -d "+quoted(capital(command.Short)))
	}
	for _, flag := range alone {
		if flag.name == "--help" {
			text.WriteString(fmt.Sprintf("complete -c syncthing-audit -l help -d %s\n", quoted(capital(flag.short))))
		} else {
			line("$none", "-l "+flag.name[2:]+" -d "+quoted(capital(flag.short)))
		}
	}
	for _, command := range all.Commands {
		for _, action := range actionsOfFish[command.Behind] {
			line("__fish_seen_subcommand_from "+command.Name, action)
		}
	}
	for _, flag := range all.Flags {
		line("__fish_seen_subcommand_from "+strings.Join(flag.Of, " "), specOfFish(all, &flag))
	}
	return text.String()
}

// specOfFish gives a flag as fish reads it.
func specOfFish(all *flags.All, flag *flags.Flag) string {
	name := "-l " + strings.TrimPrefix(flag.Name, "--")
	if !strings.HasPrefix(flag.Name, "--") {
		name = "-s " + flag.Name[1:]
	}
	behind := map[flags.Takes]string{flags.Word: " -x", flags.File: " -r", flags.Directory: " -x -a '(__fish_complete_directories)'",
		flags.OfKinds: " -x -a '(__fish_append , " + strings.Join(all.NamesOfKinds(), " ") + ")'"}
	return name + behind[flag.Takes] + " -d " + quoted(capital(flag.Short))
}
