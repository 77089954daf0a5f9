package command

import (
	"flag"
	"io"

	"syncthing-audit/answering"
	"syncthing-audit/commandline"
	"syncthing-audit/places"
)

// runRun looks twice at devices that run, here and by ssh elsewhere, and has syncaudit answer.
func runRun(words []string, output, log io.Writer) (int, error) {
	asked, err := commandline.Read("run", words, func(flags *flag.FlagSet, read *commandline.Options) {
		commandline.PlaceFlags(flags, read)
		commandline.ConsentFlags(flags, read)
		answering.Flags(flags, read)
		commandline.ProgramFlag(flags, read)
		flags.StringVar(&read.Remote, "remote-program", "", "")
		commandline.StillFlag(flags, read)
		flags.BoolVar(&read.Rescan, "rescan", false, "")
		flags.BoolVar(&read.DryRun, "dry-run", false, "")
		flags.BoolVar(&read.Paths, "paths", false, "")
		flags.StringVar(&read.History, "history", "", "")
		commandline.ObserverFlag(flags, read)
	})
	if err != nil {
		return 0, err
	}
	return places.Run(asked, output, log)
}
