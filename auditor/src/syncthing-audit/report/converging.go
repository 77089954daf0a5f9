package report

import (
	"io"

	"syncthing-audit/ask"
	"syncthing-audit/finding"
	"syncthing-audit/outside"
)

// converging prints of a folder that isn't in step whether it comes right by itself, or the first thing that hinders it. What no
// row has, such as a name without a winner, is told anyway.
func converging(to io.Writer, answer *finding.Answer, folder *finding.Folder) {
	switch answer.HowConverging(folder) {
	case finding.Converges:
		outside.Printf(to, "converging: %s\n", folder.ID)
	case finding.NotConverging:
		if folder.Convergence.First != nil {
			outside.Printf(to, "not converging: %s\n", ask.Line(folder.ID, folder.Convergence.First))
		}
	case finding.ConvergeNotKnown:
		outside.Printf(to, "not known to converge: %s\n", folder.ID)
	}
}
