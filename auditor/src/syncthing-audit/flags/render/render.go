// Package render makes of the commands and flags what shells complete, and the options and statuses of the man page.
package render

import (
	"fmt"
	"strings"

	"syncthing-audit/flags"
)

// The flags that stand without a command, with what they do.
var alone = []struct{ name, short string }{
	{"--about", "tell what an answer means"}, {"--help", "tell how to use the program"}, {"--version", "tell its version"},
}

// namesOf gives the names of flags.
func namesOf(all []flags.Flag) []string {
	names := []string{}
	for _, flag := range all {
		names = append(names, flag.Name)
	}
	return names
}

// taking gives the names of the flags behind which this stands.
func taking(all []flags.Flag, what flags.Takes) []string {
	names := []string{}
	for _, flag := range all {
		if flag.Takes == what {
			names = append(names, flag.Name)
		}
	}
	return names
}

// commandsBehind gives the commands behind which this stands.
func commandsBehind(all *flags.All, what ...flags.Takes) []string {
	names := []string{}
	for _, command := range all.Commands {
		for _, takes := range what {
			if command.Behind == takes {
				names = append(names, command.Name)
			}
		}
	}
	return names
}

// namesOfCommands gives the names of the commands.
func namesOfCommands(all *flags.All) []string {
	names := []string{}
	for _, command := range all.Commands {
		names = append(names, command.Name)
	}
	return names
}

// capital gives a text that begins with a capital letter.
func capital(text string) string { return strings.ToUpper(text[:1]) + text[1:] }

// quoted gives a text in single quotes, as each of the shells reads it.
func quoted(text string) string { return "'" + strings.ReplaceAll(text, "'", `'\''`) + "'" }

const generated = "# The program's flags.txt makes this file (go run syncthing-audit/flags/write): change it there.\n"

// Manual gives the options of the man page.
func Manual(all *flags.All) string {
	page := &strings.Builder{}
	for _, flag := range all.Flags {
		if name := roff(flag.Name); flag.Word == "" {
			page.WriteString(fmt.Sprintf(".TP\n.B %s\n", name))
		} else {
			page.WriteString(fmt.Sprintf(".TP\n.BI %s %s\n", name, wordOf(flag.Word)))
		}
		page.WriteString(strings.ReplaceAll(flag.Manual, "{kinds}", kindsOf(all)) + "\n")
	}
	page.WriteString(".TP\n.B \\-\\-help\nThe flags of a command or, in place of one, those of all.\n")
	return page.String()
}

// Statuses gives the exit statuses of the man page.
func Statuses(all *flags.All) string {
	page := &strings.Builder{}
	for _, status := range all.Statuses {
		page.WriteString(fmt.Sprintf(".TP\n.B %s\n%s\n", strings.Join(status.Numbers, " "), status.Manual))
	}
	return page.String()
}

func roff(text string) string { return strings.ReplaceAll(text, "-", `\-`) }

// wordOf gives a word behind a flag, whose parts take turns in italics and bold.
func wordOf(word string) string {
	for _, sign := range []string{"=", "/"} {
		if left, right, is := strings.Cut(word, sign); is {
			return fmt.Sprintf("%q %s %s", " "+left, sign, right)
		}
	}
	return fmt.Sprintf("%q", " "+word)
}

// kindsOf gives the kinds as a list of the man page.
func kindsOf(all *flags.All) string {
	list := &strings.Builder{}
	list.WriteString(".RS\n")
	for _, kind := range all.Kinds {
		list.WriteString(fmt.Sprintf(".IP %s\n%s\n", kind.Name, kind.Manual))
	}
	return list.String() + ".RE"
}
