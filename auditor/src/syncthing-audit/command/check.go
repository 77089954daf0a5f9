package command

import (
	"flag"
	"io"

	"syncthing-audit/answering"
	"syncthing-audit/commandline"
)

// runCheck joins devices and has syncaudit answer.
func runCheck(words []string, output, log io.Writer) (int, error) {
	asked, err := commandline.Read("check", words, func(flags *flag.FlagSet, read *commandline.Options) {
		commandline.InputFlags(flags, read)
		answering.Flags(flags, read)
		commandline.ProgramFlag(flags, read)
		flags.StringVar(&read.History, "history", "", "")
		commandline.ObserverFlag(flags, read)
	})
	if err != nil {
		return 0, err
	}
	return answering.Check(asked, output, log)
}
