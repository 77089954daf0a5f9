package command

import (
	"flag"
	"io"

	"syncthing-audit/commandline"
	"syncthing-audit/search"
)

// runFind looks in directories, such as backups, for a file with the bytes that a history has of a name.
func runFind(words []string, output, log io.Writer) (int, error) {
	asked, err := commandline.Read("find", words, func(flags *flag.FlagSet, read *commandline.Options) {
		flags.StringVar(&read.History, "history", "", "")
	})
	if err == nil && (asked.History == "" || len(asked.Folders) != 1 || len(asked.Parts) < 2) {
		err = commandline.WrongUse("'find' has --history DIR, one --folder ID, a name of that folder, and the directories to look in")
	}
	if err != nil {
		return 0, err
	}
	return search.Run(asked, output, log)
}
