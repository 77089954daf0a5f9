package summary

import (
	"strings"
	"testing"
	"time"

	"syncthing-audit/history"
	"syncthing-audit/part"
	"syncthing-audit/print"
)

// Advice that sends to old versions names their places, by the devices that tell them. Of one that keeps none, or by a command, or that doesn't say it, nothing is named.
func TestPlacesOfOldVersionsAreNamed(t *testing.T) {
	kept := func(place string) *part.Versions { return &part.Versions{Kind: part.VersionsTrashcan, Place: place} }
	for due, all := range map[string][]*part.Versions{
		"old versions":                                                         {nil, {Kind: part.VersionsNone}, {Kind: part.VersionsExternal}},
		"old versions (.stversions on a, c)":                                   {kept(".stversions"), nil, kept(".stversions")},
		"old versions (.stversions on b; '/srv/my old' on c)":                  {{Kind: part.VersionsExternal}, kept(".stversions"), kept("/srv/my old")},
		"old versions (a directory outside the folder on a; .stversions on b)": {kept(""), kept(".stversions")},
	} {
		folder := &Folder{ID: "docs"}
		for place, one := range all {
			folder.Devices = append(folder.Devices, Member{Device: string(rune('A' + place)), Versions: one})
		}
		if told := versions(print.Names(strings.ToLower), folder); told != due {
			t.Errorf("%s, not %s", told, due)
		}
		s := &Summary{Folders: []*Folder{folder}, Devices: []Device{{ID: "A", Name: "a"}, {ID: "B", Name: "b"}, {ID: "C", Name: "c"}}, Since: &history.Since{Directory: "DIR"}}
		emptied := s.WordsOfEmptied(history.Emptied{Folder: "docs"}, time.UTC)
		if last := emptied[len(emptied)-1]; !strings.Contains(last, "Then look on each device among "+versions(s.Called(), folder)+", and into backups and snapshots") {
			t.Errorf("%s: %s", due, last)
		}
	}
}
