package places

import (
	"fmt"
	"io"
	"strings"

	"syncthing-audit/commandline"
	"syncthing-audit/outside"
	"syncthing-audit/part"
	"syncthing-audit/shell"
)

// tokenLine is what a token looks like among all that is told on standard error, for grep.
const tokenLine = "^[0-9A-Z-]{63}:[0-9a-f]{32}$"

// tellCommands tells what a run would do, as a script for a shell. Where a part goes to standard output, its token is told on
// standard error, beside other lines.
func tellCommands(output io.Writer, places []*place, asked commandline.Options) error {
	if err := checkTyped(places, asked); err != nil {
		return err
	}
	labels := labelsOf(places)
	named := func(ending string) string {
		words := []string{}
		for _, label := range labels {
			words = append(words, shell.Quoted(label+ending))
		}
		return strings.Join(words, " ")
	}
	outside.Print(output, "# 'run' asks first what each device shares (part --about). With --strict it refuses by that before any file is hashed. Here 'check' does, at the end.\n")
	outside.Print(output, "# The first looks, at once or one after another. Each tells its token on standard error.\n")
	for at, place := range places {
		outside.Printf(output, "%s < /dev/null > %s 2> %s\n", shell.Words(place.begin(asked)), shell.Quoted(labels[at]+".begin"), shell.Quoted(labels[at]+".log"))
	}
	outside.Printf(output, "# Once all are over: the tokens of all, one on a line.\ngrep -hE %s %s > tokens\nsleep %g\n", shell.Word(tokenLine), named(".log"), asked.Still)
	outside.Print(output, "# The second looks. A device doesn't know whose looks are asked for, so each goes on without the tokens of others (--leave-out\n"+
		"# absent). 'check' leaves out a device that is missing, or that another one has no token of.\n")
	for at, place := range places {
		outside.Printf(output, "%s < tokens > %s\n", shell.Words(place.end(asked)), shell.Quoted(labels[at]+".end"))
	}
	outside.Printf(output, "%s %s %s\n", shell.Words(places[0].check(asked)), named(".begin"), named(".end"))
	return nil
}

// checkTyped says which word of the commands no person can type.
func checkTyped(places []*place, asked commandline.Options) error {
	for _, place := range places {
		words := append(place.check(asked), place.home, place.data, place.host, asked.Remote)
		for _, text := range words {
			if !shell.CanBeTyped(text) {
				return fmt.Errorf("refused: %s has bytes that can't be typed in one way in all shells, so there are no commands to show: run it without "+
					"--dry-run", shell.Quoted(text))
			}
		}
	}
	return nil
}

// check gives the command that joins all looks, but for their parts.
func (p *place) check(asked commandline.Options) []string {
	words := []string{p.self, "check"}
	for _, folder := range asked.Folders {
		words = append(words, "--folder", folder)
	}
	words = append(words, asked.Names.Flags()...)
	if asked.Strict {
		words = append(words, "--strict")
	}
	for _, kind := range part.Kinds {
		if asked.LeaveOut[kind] {
			words = append(words, "--leave-out", kind)
		}
	}
	if asked.Lines {
		words = append(words, "--lines")
	}
	if asked.JSON {
		words = append(words, "--json")
	}
	return append(words, "--syncaudit", asked.Program)
}

// labelsOf gives each place a name for its files that no other one has.
func labelsOf(places []*place) []string {
	labels := []string{}
	had := map[string]bool{}
	for _, place := range places {
		label := place.label()
		for next := 2; had[label]; next++ {
			label = fmt.Sprintf("%s-%d", place.label(), next)
		}
		had[label] = true
		labels = append(labels, label)
	}
	return labels
}
