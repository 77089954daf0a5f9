package exit

import (
	"errors"
	"io"

	"syncthing-audit/ask"
	"syncthing-audit/commandline"
	"syncthing-audit/fault"
	"syncthing-audit/outside"
)

// Of tells the log what is wrong, unless it was told before, and gives the exit status.
func Of(err error, output, log io.Writer) int {
	var help *commandline.WantsHelp
	var wrong *commandline.WrongUsage
	var failed *ask.Failed
	var unwritten *fault.Unwritten
	switch {
	case errors.As(err, &help):
		return OfText(commandline.HelpOf(help.Command), output, log)
	case errors.As(err, &wrong):
		outside.Printf(log, "syncthing-audit: %v\n'syncthing-audit --help' tells how to use it\n", err)
		return Usage
	case !errors.Is(err, ErrTold):
		outside.Printf(log, "syncthing-audit: %v\n", err)
	}
	switch {
	case errors.As(err, &failed):
		return failed.Status
	case errors.As(err, &unwritten):
		return Fault
	}
	return Refused
}

// OfText writes a text that was asked for, and gives the exit status.
func OfText(text string, output, log io.Writer) int {
	if err := outside.Print(fault.Writer{To: output}, text); err != nil {
		return Of(err, output, log)
	}
	return Done
}
