package command

import (
	"flag"
	"io"

	"syncthing-audit/answering"
	"syncthing-audit/commandline"
	"syncthing-audit/exported"
)

// runSum joins the answers to exported documents.
func runSum(words []string, output, log io.Writer) (int, error) {
	asked, err := commandline.Read("sum", words, func(flags *flag.FlagSet, read *commandline.Options) {
		answering.Flags(flags, read)
	})
	if err == nil && len(asked.Parts) != 1 {
		err = commandline.WrongUse("'sum' has one directory, to which documents were exported")
	}
	if err == nil {
		err = answering.CheckForm(asked)
	}
	if err != nil {
		return 0, err
	}
	answer, err := exported.SumOf(asked.Parts[0])
	if err != nil {
		return 0, err
	}
	return answering.Tell(output, log, asked, answer, nil)
}
