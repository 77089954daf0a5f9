// Package exported has what "export" leaves for "sum": documents, the answers to them, and what no document says.
package exported

import (
	"fmt"
	"io"
	"path/filepath"

	"syncthing-audit/audit"
	"syncthing-audit/commandline"
	"syncthing-audit/exit"
	"syncthing-audit/finding"
	"syncthing-audit/inputs"
	"syncthing-audit/join"
	"syncthing-audit/report"
	"syncthing-audit/shell"
	"syncthing-audit/unsynced"
)

// checkPlace says why documents can't be written where they are to go.
func checkPlace(to *outlet, opened *inputs.Inputs) error {
	if to.directory != "" {
		if err := unsynced.CheckDirectory(to.directory, "the documents", opened.Devices, opened.Homes); err != nil {
			return err
		}
		return to.checkNew()
	}
	path := unsynced.FileOf(to.output)
	if path == "" {
		return nil
	}
	if err := unsynced.CheckDirectory(filepath.Dir(path), "the documents", opened.Devices, opened.Homes); err != nil {
		return fmt.Errorf("%w. %s is there already, since the shell made it: take it away", err, shell.Quoted(path))
	}
	return nil
}

// export writes the documents of what was opened, and gives what no document says.
func export(opened *inputs.Inputs, asked commandline.Options, to *outlet) (*finding.Answer, error) {
	plan, err := join.NewPlanWithout(inputs.WhyLeft(opened.Left), opened.Devices, asked.Folders, asked.KnownObservers()...)
	if err != nil {
		return nil, err
	}
	answer, err := audit.Collect(plan, opened.Options(asked), to.take)
	if err == nil {
		inputs.AddLeft(answer, opened.Left)
	}
	return answer, err
}

// Run joins devices, and writes their documents to where they are to go.
func Run(asked commandline.Options, output, log io.Writer) (int, error) {
	opened, err := inputs.Open(asked)
	if err != nil {
		return 0, err
	}
	defer opened.Close()
	to := &outlet{output: output, directory: asked.Into}
	if err := checkPlace(to, opened); err != nil {
		return 0, err
	}
	opened.TellLeft(log)
	inputs.TellDevices(log, opened.Devices)
	answer, err := opened.Audited(asked, log, func() (*finding.Answer, error) { return export(opened, asked, to) })
	if err == nil {
		report.Rest(log, answer)
		err = to.end(answer, log)
	}
	if err != nil {
		to.drop()
		return 0, err
	}
	return exit.Done, nil
}
