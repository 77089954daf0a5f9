package summary

import (
	"strings"
	"testing"
	"time"

	"syncthing-audit/finding"
	"syncthing-audit/part"
)

// renames are names of which some go at the server and others come there, and which of them are told as renamed.
var renames = []struct {
	why  string
	fill func(*finding.Folder)
	from map[string]string
}{
	{"renamed on the laptop, and the server is behind", func(folder *finding.Folder) {
		fails(folder, "new", []*part.Name{file(1, 7), nil}, "RecordMissing 2", "StoreDiffers 2")
		fails(folder, "old", []*part.Name{gone(), file(1, 7)}, "RecordDiffers 2", "StoreDiffers 2", "ViewAhead 2")
	}, map[string]string{"new": "old"}},
	{"renamed on the server's disk, and no scan has seen it", func(folder *finding.Folder) {
		unwon(folder, "new", 1, finding.Unscanned, with(file(1, 7), func(at *part.Name) { at.Own = nil }))
		fails(folder, "old", []*part.Name{file(1, 7), with(file(1, 7), func(at *part.Name) { at.Disk = nil })}, "StoreDiffers 2")
	}, map[string]string{"new": "old"}},
	{"two of the same bytes, one of which goes", func(folder *finding.Folder) {
		fails(folder, "new", []*part.Name{file(1, 7), nil}, "RecordMissing 2", "StoreDiffers 2")
		fails(folder, "newer", []*part.Name{file(1, 7), nil}, "RecordMissing 2", "StoreDiffers 2")
		fails(folder, "old", []*part.Name{gone(), file(1, 7)}, "RecordDiffers 2", "StoreDiffers 2", "ViewAhead 2")
	}, map[string]string{"new": "old"}},
	{"other bytes", func(folder *finding.Folder) {
		fails(folder, "new", []*part.Name{file(1, 8), nil}, "RecordMissing 2", "StoreDiffers 2")
		fails(folder, "old", []*part.Name{gone(), file(1, 7)}, "RecordDiffers 2", "StoreDiffers 2", "ViewAhead 2")
	}, nil},
	{"another device", func(folder *finding.Folder) {
		fails(folder, "new", []*part.Name{nil, file(1, 7)}, "RecordMissing 1", "StoreDiffers 1")
		fails(folder, "old", []*part.Name{gone(), file(1, 7)}, "RecordDiffers 2", "StoreDiffers 2", "ViewAhead 2")
	}, nil},
	{"empty files", func(folder *finding.Folder) {
		empty := func(at *part.Name) { at.Own.Content.Size = 0 }
		fails(folder, "new", []*part.Name{with(file(1, 7), empty), nil}, "RecordMissing 2", "StoreDiffers 2")
		fails(folder, "old", []*part.Name{gone(), with(file(1, 7), empty)}, "RecordDiffers 2", "StoreDiffers 2", "ViewAhead 2")
	}, nil},
}

// gone is what a device has of a file that it deleted.
func gone() *part.Name {
	return &part.Name{Own: &part.Record{ModifiedS: later, ModifiedBy: 1, Version: [][2]uint64{{1, 2}}, Sequence: 2, Deleted: true}}
}

// A file that was renamed is told as one: each of its two names says the other one, to people and to programs.
func TestRenames(t *testing.T) {
	var documents strings.Builder
	for _, row := range renames {
		var written strings.Builder
		summary := Of(answerOf(2, row.fill))
		summary.Print(&written, time.UTC, time.Time{})
		told := 0
		for _, file := range summary.Folders[0].Files {
			if string(file.RenamedFrom) != row.from[string(file.Name)] {
				t.Errorf("%s: %s is renamed from %q", row.why, file.Name, file.RenamedFrom)
			}
			if file.RenamedTo != "" && row.from[string(file.RenamedTo)] == string(file.Name) {
				told++
			}
		}
		if told != len(row.from) || strings.Contains(written.String(), "  it seems to be renamed from old: the recorded bytes are the same\n") != (told > 0) ||
			strings.Contains(written.String(), "  it seems to be renamed to new: the recorded bytes are the same\n") != (told > 0) {
			t.Errorf("%s:\n%s", row.why, written.String())
		}
		if err := summary.WriteJSON(&documents); err != nil {
			t.Fatal(err)
		}
	}
	if told, err := validate(t, documents.String()); err != nil {
		t.Error(told)
	}
}
