package command

import (
	"flag"
	"io"

	"syncthing-audit/commandline"
	"syncthing-audit/night"
)

// runWatch makes a night's audit as a configuration says, and tells what is new.
func runWatch(words []string, output, log io.Writer) (int, error) {
	asked, err := commandline.Read("watch", words, func(flags *flag.FlagSet, read *commandline.Options) {
		commandline.ProgramFlag(flags, read)
		commandline.StillFlag(flags, read)
	})
	if err == nil && len(asked.Parts) != 1 {
		err = commandline.WrongUse("'watch' has one file: the configuration")
	}
	if err != nil {
		return 0, err
	}
	return night.Run(asked, output, log)
}
