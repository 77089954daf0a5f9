// Package flags has the commands, the flags, the kinds of what is left out and the exit statuses, each once, in flags.txt. The program's help, the
// completions of shells, and the man page's options and statuses are made of it.
package flags

import (
	_ "embed"
	"fmt"
	"strings"

	"golang.org/x/exp/slices"
)

//go:embed flags.txt
var text string

// Takes says what stands behind a flag, or behind a command.
type Takes string

// What stands there.
const (
	Nothing   Takes = ""
	Word      Takes = "word"
	File      Takes = "file"
	Directory Takes = "directory"
	OfKinds   Takes = "kinds"    // kinds of what is left out, with commas between
	Parts     Takes = "parts"    // files whose names end with .part
	Machines  Takes = "machines" // or homes
)

// Command is a command of the program.
type Command struct {
	Name   string
	Short  string
	Behind Takes // what stands behind it
}

// Flag is a flag of some commands.
type Flag struct {
	Name    string // with its dashes
	Word    string // what stands behind it, as the help calls it
	Of      []string
	Takes   Takes
	Repeats bool     // whether it may be given more than once
	Apart   []string // the flags beside which it doesn't stand
	Short   string   // for completions
	Help    string
	Manual  string // for the man page, as roff
}

// Kind is a kind of what is left out.
type Kind struct {
	Name   string
	Manual string
}

// Status is an exit status, or several of one meaning.
type Status struct {
	Numbers []string
	Help    string
	Manual  string
}

// All is what flags.txt has, in its order.
type All struct {
	Commands []Command
	Flags    []Flag
	Kinds    []Kind
	Statuses []Status
}

// Read gives what flags.txt has. The program has it in itself, so a fault in it is the program's.
func Read() *All {
	all := &All{}
	for _, block := range strings.Split(strings.TrimSpace(text), "\n\n") {
		if !strings.HasPrefix(block, "#") {
			all.add(fieldsOf(block))
		}
	}
	return all
}

// add adds what a block says: a command, a kind, statuses or a flag.
func (a *All) add(head string, fields map[string]string) {
	words := strings.Fields(head)
	switch {
	case words[0] == "command":
		a.Commands = append(a.Commands, Command{words[1], fields["short"], Takes(fields["behind"])})
	case words[0] == "kind":
		a.Kinds = append(a.Kinds, Kind{words[1], fields["man"]})
	case words[0] == "status":
		a.Statuses = append(a.Statuses, Status{words[1:], fields["help"], fields["man"]})
	default:
		a.Flags = append(a.Flags, Flag{Name: words[0], Word: strings.Join(words[1:], " "), Of: strings.Fields(fields["of"]), Takes: Takes(fields["takes"]),
			Repeats: fields["repeats"] == "yes", Apart: strings.Fields(fields["apart"]), Short: fields["short"], Help: fields["help"], Manual: fields["man"]})
	}
}

// fieldsOf gives a block's first line, and its fields by their names. A line that begins with spaces goes on with the field before it. A field of roff
// keeps its lines.
func fieldsOf(block string) (string, map[string]string) {
	lines := strings.Split(block, "\n")
	fields, name := map[string]string{}, ""
	for _, line := range lines[1:] {
		between := " "
		if name == "man" {
			between = "\n"
		}
		if strings.HasPrefix(line, "  ") {
			fields[name] = strings.TrimLeft(fields[name]+between+line[2:], "\n")
			continue
		}
		var value string
		var is bool
		if name, value, is = strings.Cut(line, ":"); !is {
			panic(fmt.Sprintf("flags.txt: %q isn't a field", line))
		}
		fields[name] = strings.TrimSpace(value)
	}
	return lines[0], fields
}

// OfCommand gives the flags of a command.
func (a *All) OfCommand(command string) []Flag {
	flags := []Flag{}
	for _, flag := range a.Flags {
		if slices.Contains(flag.Of, command) {
			flags = append(flags, flag)
		}
	}
	return flags
}

// IsOf says whether a command has a flag of this name.
func (a *All) IsOf(name, command string) bool {
	return slices.IndexFunc(a.Flags, func(flag Flag) bool { return flag.Name == name && slices.Contains(flag.Of, command) }) >= 0
}

// Has says whether there is a flag of this name, of whichever command.
func (a *All) Has(name string) bool {
	return slices.IndexFunc(a.Flags, func(flag Flag) bool { return flag.Name == name }) >= 0
}

// NamesOfKinds gives the kinds of what is left out.
func (a *All) NamesOfKinds() []string {
	names := []string{}
	for _, kind := range a.Kinds {
		names = append(names, kind.Name)
	}
	return names
}
