package audit

import (
	"errors"
	"strings"
	"testing"

	"syncthing-audit/finding"
	"syncthing-audit/join"
)

// Where nothing is left to audit, what was left out is told: the first ones, and how many more there are.
func TestWhatWasLeftOutWhereNothingIsLeft(t *testing.T) {
	for count, told := range map[int]string{
		0: "no name of any folder is left", 1: "is left. Left out: docs (Documents) of nas: it is encrypted there",
		5: "it is encrypted there", 6: "it is encrypted there; and 1 more", 7: "it is encrypted there; and 2 more",
	} {
		asked := &collector{plan: &join.Plan{}, answer: &finding.Answer{}}
		for len(asked.answer.LeftOut) < count {
			asked.answer.LeftOut = append(asked.answer.LeftOut, finding.Refusal{Folder: "docs", Label: "Documents", Device: "nas", Why: "it is encrypted there"})
		}
		err := asked.checkSomething()
		if !errors.Is(err, ErrNothing) || !strings.HasSuffix(err.Error(), told) || strings.Count(err.Error(), "of nas") > mostLeft {
			t.Errorf("%d: %v", count, err)
		}
	}
}
