package command

import (
	"flag"
	"fmt"
	"io"
	"os"
	"strings"
	"time"

	"syncthing-audit/answering"
	"syncthing-audit/commandline"
	"syncthing-audit/exit"
	"syncthing-audit/night"
	"syncthing-audit/page"
	"syncthing-audit/release"
	"syncthing-audit/shell"
	"syncthing-audit/summary"
	"syncthing-audit/target"
	"syncthing-audit/watch"
)

// runReport writes a page to look at: of what nights left, or of an answer to parts and homes.
func runReport(words []string, output, log io.Writer) (int, error) {
	asked, err := commandline.Read("report", words, func(flags *flag.FlagSet, read *commandline.Options) {
		commandline.InputFlags(flags, read)
		commandline.ProgramFlag(flags, read)
		flags.StringVar(&read.History, "history", "", "")
		commandline.ObserverFlag(flags, read)
		flags.Var((*commandline.Filled)(&read.HTML), "html", "")
		flags.Var((*commandline.Filled)(&read.Watch), "watch", "")
	})
	switch {
	case err != nil:
		return 0, err
	case asked.HTML == "":
		return 0, commandline.WrongUse("'report' needs --html FILE: where the page goes")
	case asked.Watch != "" && len(asked.Homes)+len(asked.Parts) > 0:
		return 0, commandline.WrongUse("--watch is of what nights left: no home and no part goes with it")
	}
	write, err := target.Writer(commandline.Options{Output: asked.HTML, About: true}, output, log, nil)
	if err != nil {
		return 0, err
	}
	if asked.Watch != "" {
		return exit.Done, reportNights(asked, write)
	}
	return reportAnswer(asked, write, log)
}

// reportNights writes the page of what nights left.
func reportNights(asked commandline.Options, write target.Writing) error {
	config, err := watch.Read(asked.Watch)
	if err != nil {
		return fmt.Errorf("refused: %s: %w", shell.Quoted(asked.Watch), err)
	}
	home, err := os.UserHomeDir()
	if err != nil {
		return err
	}
	directory := night.Directory(config, home)
	kept, err := page.Read(directory)
	if err != nil {
		return fmt.Errorf("refused: what nights left in %s can't be read: %w", shell.Quoted(directory), err)
	}
	return writePage(write, kept)
}

// reportAnswer writes the page of an answer, and gives the status of that.
func reportAnswer(asked commandline.Options, write target.Writing, log io.Writer) (int, error) {
	var text strings.Builder
	var told *summary.Summary
	asked.Take = func(answer *summary.Summary) { told = answer }
	status, err := answering.Check(asked, &text, log)
	if err != nil {
		return 0, err
	}
	return status, writePage(write, &page.Kept{Answers: []page.Answer{page.AnswerOf("", time.Now(), status, text.String(), told)}})
}

// writePage writes a page to where it goes.
func writePage(write target.Writing, kept *page.Kept) error {
	return write(func(to io.Writer) error { return page.Write(to, kept, time.Now(), "syncthing-audit "+release.Version) })
}
