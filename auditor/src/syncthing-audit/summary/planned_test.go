package summary

import (
	"fmt"
	"strings"
	"testing"
	"time"

	"syncthing-audit/finding"
	"syncthing-audit/forecast"
	"syncthing-audit/outlook"
	"syncthing-audit/part"
)

// planFor gives an outlook with a plan for some names, and for so many below them.
func planFor(below int64, names ...string) *outlook.Outlook {
	plan := outlook.Plan{Count: int64(len(names)), Below: below, Goal: &outlook.Thing{Devices: []string{laptop}, Type: forecast.File}, IsAll: true,
		Steps: []outlook.Step{{Act: outlook.Copy, Device: server, From: laptop}}}
	for _, name := range names {
		plan.Names = append(plan.Names, part.Bytes(name))
	}
	return &outlook.Outlook{Names: 1, Lost: 1, Plans: []*outlook.Plan{&plan}}
}

// The steps end with a start of all devices. Whatever an entry says to do before that, and no step puts right, comes before it.
func TestNothingStartsBeforeWhatHasNoSteps(t *testing.T) {
	for _, row := range []struct {
		why, told string
		outlook   *outlook.Outlook
		names     []string
	}{
		{"all have steps", "2. start Syncthing on all its devices", planFor(0, "a", "b"), []string{"a", "b"}},
		{"one has none", "2. do what the entries below say to do before Syncthing starts or scans, for 1 name that no step here puts right: b 3. start Syncthing",
			planFor(0, "a"), []string{"a", "b"}},
		{"two have none", "for 2 names that no step here puts right: a/b b 3. start", planFor(0, "a"), []string{"a", "a/b", "b"}},
		{"one comes back with what is above it", "2. start Syncthing on all its devices", planFor(1, "a"), []string{"a", "a/b"}},
		{"a plan saves alone", "2. start Syncthing on all its devices", func() *outlook.Outlook {
			planned := planFor(0, "a")
			planned.Plans[0].Goal, planned.Plans[0].Steps[0].Act = nil, outlook.Save
			return planned
		}(), []string{"a"}},
		{"one changes and one goes", "2. start Syncthing on all its devices; that has all devices change or delete 2 names below: see first whether that is wanted", func() *outlook.Outlook {
			planned := planFor(0, "a")
			planned.Listed = []outlook.Name{{Name: "b", Fate: outlook.Changed}, {Name: "c", Fate: outlook.Deleted}, {Name: "d", Fate: outlook.ByItself}, {Name: "a", Fate: outlook.Changed}}
			return planned
		}(), []string{"a", "b", "c", "d"}},
	} {
		answer := answerOf(2, func(folder *finding.Folder) {
			folder.Outlook = row.outlook
			for _, name := range row.names {
				missing(folder, name, 1)
			}
		})
		var written strings.Builder
		Of(answer).Print(&written, time.UTC, time.Time{})
		if text := strings.Join(strings.Fields(written.String()), " "); !strings.Contains(text, row.told) {
			t.Error(fmt.Sprint(row.why, ": ", text))
		}
	}
}
