package command

import (
	"flag"
	"io"

	"syncthing-audit/commandline"
	"syncthing-audit/exported"
	"syncthing-audit/terminal"
)

// runExport joins devices and writes their check documents.
func runExport(words []string, output, log io.Writer) (int, error) {
	asked, err := readExportOptions(words, output)
	if err != nil {
		return 0, err
	}
	return exported.Run(asked, output, log)
}

// readExportOptions reads the words behind 'export'.
func readExportOptions(words []string, output io.Writer) (commandline.Options, error) {
	asked, err := commandline.Read("export", words, func(flags *flag.FlagSet, read *commandline.Options) {
		commandline.InputFlags(flags, read)
		commandline.ObserverFlag(flags, read)
		flags.StringVar(&read.Into, "into", "", "")
	})
	if err == nil {
		err = asked.CheckInputs()
	}
	if err == nil && asked.Into == "" && terminal.Is(output) {
		err = commandline.WrongUse("a document is nothing to read on a terminal: --into DIR, or a pipe")
	}
	return asked, err
}
