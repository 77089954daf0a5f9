package report

import (
	"strings"
	"testing"

	"github.com/syncthing/syncthing/lib/protocol"
	"syncthing-audit/finding"
	"syncthing-audit/join"
	"syncthing-audit/part"
)

// Each line says what may change a folder, on which device: of one that would be firm, and of one that isn't firm anyway.
func TestLinesOfWhatMayChangeAFolder(t *testing.T) {
	loose := &finding.Failure{Reason: finding.VersionDiffers, Name: "a", Device: 1}
	for told, first := range map[string]*finding.Failure{"not known to be firm": nil, "may change by itself": loose} {
		device := &join.Device{Number: 2, Head: &part.Head{Device: protocol.DeviceID{7: 2}.String(), Look: &part.Look{}}}
		about := &part.Folder{Rest: &part.Rest{State: "scanning"}}
		folder := &finding.Folder{ID: "docs", NotFirm: first,
			Members: []join.Member{{Device: device, About: about, ToIgnore: 3, Linked: &part.Count{Names: 4}}}}
		var made strings.Builder
		firm(&made, folder)
		expected := told + ": docs on 2: busy: Syncthing was never seen idle between the looks: it was 'scanning'\n" +
			told + ": docs on 2: to-ignore: 3 names\n" + told + ": docs on 2: linked: 4 names\n"
		if made.String() != expected {
			t.Error(made.String())
		}
	}
}
