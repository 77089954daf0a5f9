package script

import (
	"strings"
	"testing"
	"time"

	"syncthing-audit/outlook"
	"syncthing-audit/summary"
)

// What no script does is told in each, for each folder that has steps, be it one alone: the names of all such folders together. One that wasn't
// looked at so far doesn't count.
func TestNotesOfFolders(t *testing.T) {
	folderOf := func(id string, without, unknown, hidden int64, names ...string) *summary.Folder {
		told := &outlook.Outlook{WithoutSteps: without, NotKnown: unknown}
		for _, name := range names {
			told.Plans = append(told.Plans, planOf(ids[0], name))
		}
		if len(names) > 0 {
			told.Plans[0].Count += hidden
		}
		return &summary.Folder{ID: id, Outlook: told}
	}
	for _, row := range []struct {
		folders []*summary.Folder
		says    []string
	}{
		{[]*summary.Folder{folderOf("a", 3, 4, 5, "x")}, []string{"for 3 names that", "to 4 names", "5 more names need"}},
		{[]*summary.Folder{folderOf("a", 1, 1, 1, "x")}, []string{"for 1 name that", "to 1 name:", "1 more name needs"}},
		{[]*summary.Folder{{ID: "none"}, folderOf("a", 3, 4, 5, "x"), folderOf("b", 10, 20, 30, "x", "y")}, []string{"for 13 names that", "to 24 names", "35 more names need"}},
		{[]*summary.Folder{folderOf("a", 0, 0, 0, "x", "y")}, nil},
	} {
		told := summaryOf(nil)
		told.Folders = row.folders
		scripts := Of(told, time.Unix(0, 0))
		if len(scripts) != 1 {
			t.Fatalf("%d scripts", len(scripts))
		}
		for _, says := range row.says {
			if !strings.Contains(scripts[0].Text, says) {
				t.Errorf("no %q in %s", says, scripts[0].Text)
			}
		}
		for _, note := range []string{"that no script puts right", "It isn't known", "and no script has them"} {
			if strings.Contains(scripts[0].Text, note) != (row.says != nil) {
				t.Errorf("%q: %v", note, row.says)
			}
		}
	}
}
