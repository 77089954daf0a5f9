package command

import (
	"flag"
	"fmt"
	"io"
	"time"

	"syncthing-audit/commandline"
	"syncthing-audit/exit"
	"syncthing-audit/history"
	"syncthing-audit/summary"
)

// runWanted notes in a history that the files of a folder were wanted to go which an audit found gone.
func runWanted(words []string, output, log io.Writer) (int, error) {
	asked, err := commandline.Read("wanted", words, func(flags *flag.FlagSet, read *commandline.Options) {
		flags.StringVar(&read.History, "history", "", "")
	})
	if err == nil && (asked.History == "" || len(asked.Folders) != 1 || len(asked.Parts) != 1) {
		err = commandline.WrongUse("'wanted' has --history DIR, one --folder ID, and the time that the answer tells")
	}
	if err != nil {
		return 0, err
	}
	found, err := time.Parse(time.RFC3339, asked.Parts[0])
	if err != nil {
		return 0, commandline.WrongUse("the time is one as 2026-11-30T03:00:05Z, as the answer tells it")
	}
	emptied, err := intend(asked.History, asked.Folders[0], found)
	if err != nil {
		return 0, err
	}
	return exit.OfText(summary.WordsOfIntended(emptied, time.Local)+"\n", output, log), nil
}

// intend notes it in a history that is there.
func intend(directory, folder string, found time.Time) (*history.Emptied, error) {
	if err := history.CheckThere(directory); err != nil {
		return nil, fmt.Errorf("refused: there is no history: %w", err)
	}
	kept, err := history.Open(directory)
	if err != nil {
		return nil, err
	}
	defer kept.Close()
	emptied, err := kept.Intend(folder, found)
	if err != nil {
		err = fmt.Errorf("refused: %s, %s: %w", folder, found.UTC().Format(time.RFC3339), err)
	}
	return emptied, err
}
