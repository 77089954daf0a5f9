package command

import (
	"flag"
	"io"

	"syncthing-audit/answering"
	"syncthing-audit/commandline"
	"syncthing-audit/observing"
)

// runObserve asks running devices over the wire, as a device of its own that keeps no files, and has syncaudit answer.
func runObserve(words []string, output, log io.Writer) (int, error) {
	asked, err := commandline.Read("observe", words, func(flags *flag.FlagSet, read *commandline.Options) {
		commandline.ConsentFlags(flags, read)
		answering.Flags(flags, read)
		commandline.ProgramFlag(flags, read)
		flags.BoolVar(&read.Init, "init", false, "")
		flags.BoolVar(&read.Records, "records", false, "")
		flags.StringVar(&read.Listen, "listen", "", "")
		flags.StringVar(&read.Into, "into", "", "")
		commandline.StillFlag(flags, read)
		flags.StringVar(&read.History, "history", "", "")
		commandline.ObserveFlags(flags, read)
		flags.BoolVar(&read.Rescan, "rescan", false, "")
	})
	if err != nil {
		return 0, err
	}
	return observing.Run(asked, output, log)
}
