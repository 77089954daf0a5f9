package inputs

import (
	"strings"

	"golang.org/x/exp/slices"
	"syncthing-audit/finding"
	"syncthing-audit/part"
	"syncthing-audit/shell"
)

// Left is a home or a machine that is left out as a whole, and why.
type Left struct {
	Called string
	Device string // its id; nothing where it isn't known
	Why    string
}

// WhyLeft gives why places are left out, by the ids of their devices. Those whose ids aren't known stand at no id.
func WhyLeft(places []Left) map[string]string {
	reasons := map[string]string{}
	for _, left := range places {
		reasons[left.Device] = shell.Printable(left.Why)
	}
	return reasons
}

// AddLeft adds the places of which no folder of an answer tells, since their ids aren't known, say, or nobody shares a folder with them.
func AddLeft(answer *finding.Answer, places []Left) {
	for _, left := range places {
		isTold := func(had finding.Refusal) bool {
			return had.Device == left.Called || left.Device != "" && had.ID == left.Device
		}
		if slices.IndexFunc(answer.LeftOut, isTold) < 0 {
			why := strings.TrimPrefix(left.Why, left.Called+": ") // a command says at which place it ended
			answer.LeftOut = append(answer.LeftOut, finding.Refusal{Kind: part.Absent, Device: left.Called, ID: left.Device, Why: shell.Printable(why)})
		}
	}
}
