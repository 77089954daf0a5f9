// Package command has the program's commands: each reads its words, and has the package that does it do it.
package command

import (
	"fmt"
	"io"

	"syncthing-audit/commandline"
	"syncthing-audit/exit"
	"syncthing-audit/release"
)

// command is one of the program's commands.
type command func(words []string, output, log io.Writer) (int, error)

var commands = map[string]command{"part": runPart, "check": runCheck, "run": runRun, "export": runExport, "sum": runSum, "find": runFind, "wanted": runWanted, "observe": runObserve, "disk": runDisk, "watch": runWatch, "report": runReport}

// Run runs the command that the words name and gives the exit status.
func Run(words []string, output, log io.Writer) int {
	if len(words) > 0 && isHelp(words[0]) {
		text := commandline.Usage
		if len(words) > 1 && commands[words[1]] != nil {
			text = commandline.HelpOf(words[1])
		}
		return exit.OfText(text, output, log)
	}
	if len(words) > 0 && words[0] == "--about" {
		return exit.OfText(release.Meaning, output, log)
	}
	if len(words) > 0 && words[0] == "--version" {
		return exit.OfText("syncthing-audit "+release.Version+"\n", output, log)
	}
	if len(words) == 0 {
		return exit.Of(commandline.WrongUse("no command is given: part, check, run, observe, watch, report, disk, export, sum, find or wanted"), output, log)
	}
	if commands[words[0]] == nil {
		return exit.Of(commandline.WrongUse(fmt.Sprintf("%q is no command: part, check, run, observe, watch, report, disk, export, sum, find and wanted are", words[0])), output, log)
	}
	status, err := commands[words[0]](words[1:], output, log)
	if err == nil {
		return status
	}
	return exit.Of(err, output, log)
}

func isHelp(word string) bool { return word == "--help" || word == "-h" || word == "help" }
