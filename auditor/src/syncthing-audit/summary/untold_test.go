package summary

import (
	"strings"
	"testing"

	"syncthing-audit/finding"
	"syncthing-audit/part"
)

// A device that has heard of later changes, and not of this one, isn't told of it again by Syncthing.
func TestChangesThatNobodyTells(t *testing.T) {
	newest := func() *part.Name { return with(file(2, 1), func(row *part.Name) { row.Own.Sequence = 7 }) }
	seeing := func(row *part.Name, version uint64) *part.Name {
		row.Views = []part.Seen{{View: 0, Record: file(version, 1).Own}}
		return row
	}
	for _, row := range []struct {
		why   string
		has   *part.Name
		view  part.View
		isFor bool
	}{
		{"the view goes beyond it, and has an older record", seeing(file(1, 2), 1), part.View{Device: laptop, IndexID: 5, Max: 7}, true},
		{"the view goes beyond it, and has none", file(1, 2), part.View{Device: laptop, IndexID: 5, Max: 9}, true},
		{"the device has nothing of it", nil, part.View{Device: laptop, IndexID: 5, Max: 9}, true},
		{"the view has it", seeing(file(1, 2), 2), part.View{Device: laptop, IndexID: 5, Max: 7}, false},
		{"the view doesn't go so far", seeing(file(1, 2), 1), part.View{Device: laptop, IndexID: 5, Max: 6}, false},
		{"the view is of an earlier index", seeing(file(1, 2), 1), part.View{Device: laptop, IndexID: 4, Max: 7}, false},
		{"the view is of another device", seeing(file(1, 2), 1), part.View{Device: phone, IndexID: 5, Max: 7}, false},
	} {
		reason := "RecordDiffers 2"
		if row.has == nil {
			reason = "RecordMissing 2"
		}
		text := printed(answerOf(2, func(folder *finding.Folder) {
			folder.Members[0].About.IndexID = 5
			folder.Members[1].About.Views = []part.View{row.view}
			fails(folder, "a", []*part.Name{newest(), row.has}, reason, "StoreDiffers 2")
		}))
		if strings.Contains(text, "start it there once by 'syncthing serve --reset-deltas', as the same user and with the same --home, --config and --data as ever.") != row.isFor {
			t.Errorf("%s: %s", row.why, text)
		}
	}
}

// Where one of those who have it still tells it, the device needs nothing but to run.
func TestAChangeThatAnotherDeviceTells(t *testing.T) {
	text := printed(answerOf(3, func(folder *finding.Folder) {
		for member := range folder.Members {
			folder.Members[member].About.IndexID = uint64(member + 1)
		}
		folder.Members[2].About.Views = []part.View{{Device: laptop, IndexID: 1, Max: 7}, {Device: server, IndexID: 2, Max: 0}}
		fails(folder, "a", []*part.Name{file(2, 1), file(2, 1), file(1, 2)}, "RecordDiffers 3", "StoreDiffers 3")
	}))
	if strings.Contains(text, "reset-deltas") || !strings.Contains(text, "behind") {
		t.Error(text)
	}
}
