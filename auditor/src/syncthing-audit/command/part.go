package command

import (
	"flag"
	"fmt"
	"io"

	"syncthing-audit/commandline"
	"syncthing-audit/exit"
	"syncthing-audit/ownpart"
	"syncthing-audit/target"
	"syncthing-audit/unsynced"
)

// runPart writes a device's part.
func runPart(words []string, output, log io.Writer) (int, error) {
	asked, err := readPartOptions(words)
	if err != nil {
		return 0, err
	}
	if asked.Show != "" {
		return exit.Done, showPart(asked.Show, output)
	}
	write, err := target.Writer(asked, output, log, target.SignPart)
	if err != nil {
		return 0, err
	}
	if target.IsStandard[asked.Output] {
		asked.IsStandard, asked.Output = true, unsynced.FileOf(output)
	}
	switch {
	case asked.About:
		return exit.Done, ownpart.TellAbout(asked, write, log)
	case asked.Begin:
		return exit.Done, ownpart.Begin(asked, write, output, log)
	case asked.End:
		return exit.Done, ownpart.End(asked, write, log)
	}
	return exit.Done, ownpart.Write(asked, write, log)
}

// readPartOptions reads the words behind 'part'.
func readPartOptions(words []string) (commandline.Options, error) {
	var given *flag.FlagSet
	asked, err := commandline.Read("part", words, func(flags *flag.FlagSet, read *commandline.Options) {
		given = flags
		flags.Var((*commandline.Filled)(&read.Show), "show", "")
		flags.StringVar(&read.Output, "o", "", "")
		commandline.HomeFlags(flags, read)
		flags.BoolVar(&read.About, "about", false, "")
		flags.BoolVar(&read.Begin, "begin", false, "")
		flags.BoolVar(&read.End, "end", false, "")
		flags.BoolVar(&read.Rescan, "rescan", false, "")
		flags.BoolVar(&read.HeedsInput, "heed-input", false, "")
		flags.BoolVar(&read.Steps, "progress", false, "")
		flags.Var((*commandline.List)(&read.Tokens), "tokens", "")
		commandline.StillFlag(flags, read)
		commandline.ObserverFlag(flags, read)
		commandline.ConsentFlags(flags, read)
		flags.Var((*commandline.Filled)(&read.Key), "sign", "")
		flags.BoolVar(&read.Paths, "paths", false, "")
	})
	if err == nil && len(asked.Parts) > 0 {
		err = commandline.WrongUse(fmt.Sprintf("%q stands behind no flag: a home stands behind --home, and the part behind -o", asked.Parts[0]))
	}
	if err == nil && asked.Show != "" {
		if given.NFlag() > 1 {
			err = commandline.WrongUse("--show reads a part and makes none: it has no other flag beside it")
		}
		return asked, err
	}
	if err == nil && len(asked.Homes) > 1 {
		err = commandline.WrongUse("a part is made of one --home")
	}
	if err == nil {
		err = ownpart.CheckLooks(&asked)
	}
	if err == nil {
		err = target.CheckSigning(asked)
	}
	if err == nil && len(asked.Homes) == 0 {
		err = ownpart.TakeDefaultHome(&asked)
	}
	return asked, err
}
