package report

import (
	"strings"
	"testing"

	"syncthing-audit/finding"
)

// One line says whether a folder that isn't in step comes right by itself; of one in step nothing is said.
func TestLineOfConverging(t *testing.T) {
	for expected, change := range map[string]func(*finding.Folder){
		"converging: docs\n": func(*finding.Folder) {},
		"not converging: WouldCopy docs b\\x20c on 2\n": func(folder *finding.Folder) {
			folder.Convergence.First = &finding.Failure{Reason: "WouldCopy", Name: "b c", Device: 2}
		},
		"not known to converge: docs\n": func(folder *finding.Folder) { folder.LeftOut = []*finding.LeftOut{{Name: "d"}} },
		"":                              func(folder *finding.Folder) { folder.Failures = finding.Failures{} },
	} {
		folder := folderOf("docs", 2, finding.Failure{Reason: "StoreDiffers", Name: "b", Device: 1})
		folder.Convergence.Pairs = new(int64)
		change(folder)
		var told strings.Builder
		if converging(&told, &finding.Answer{Folders: []*finding.Folder{folder}}, folder); told.String() != expected {
			t.Errorf("%q, not %q", told.String(), expected)
		}
	}
}
