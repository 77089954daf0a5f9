// Package answering audits what was opened, keeps what was found in a history, and tells the answer.
package answering

import (
	"bufio"
	"flag"
	"fmt"
	"io"
	"time"

	"syncthing-audit/commandline"
	"syncthing-audit/exit"
	"syncthing-audit/fault"
	"syncthing-audit/finding"
	"syncthing-audit/history"
	"syncthing-audit/report"
	"syncthing-audit/summary"
)

// Flags are the flags of commands that tell an answer.
func Flags(flags *flag.FlagSet, read *commandline.Options) {
	flags.BoolVar(&read.Lines, "lines", false, "")
	flags.BoolVar(&read.JSON, "json", false, "")
	flags.StringVar(&read.Script, "script", "", "")
}

// CheckForm says what is wrong with the form that is asked for.
func CheckForm(o commandline.Options) error {
	if o.Lines && o.JSON {
		return commandline.WrongUse("--lines and --json are two forms of the answer: choose one")
	}
	return checkScripts(o.Script)
}

// Tell tells an answer in the form that was asked for, and gives the exit status.
func Tell(output, log io.Writer, asked commandline.Options, answer *finding.Answer, since *history.Since) (int, error) {
	var err error
	told := summary.Of(answer)
	told.Remember(since)
	to := bufio.NewWriter(fault.Writer{To: output})
	switch {
	case asked.Lines:
		dangers := dangersOf(answer, told)
		dangers.IsUnread = since.HasUnread()
		report.Lines(to, answer, dangers)
		report.Since(to, since)
	case asked.JSON:
		err = told.WriteJSON(to)
	default:
		told.Print(to, time.Local, time.Now())
	}
	if err == nil {
		err = answer.Err()
	}
	if err == nil {
		err = to.Flush()
	}
	if err != nil {
		return 0, fmt.Errorf("the answer can't be written: %w", err)
	}
	if err := writeScripts(asked.Script, told, log); err != nil {
		return 0, err
	}
	if asked.Take != nil {
		asked.Take(told)
	}
	switch status := Status(answer); {
	case since.HasUnread():
		return exit.NotSettled, nil
	case status != exit.Done || since == nil || !since.IsToLookAt():
		return status, nil
	}
	return exit.Partial, nil
}
