package watch

import (
	"fmt"
	"time"

	"syncthing-audit/history"
	"syncthing-audit/outside"
	"syncthing-audit/shell"
	"syncthing-audit/summary"
)

// mostNews is how many names of each kind are listed; --json has all.
const mostNews = 10

// Limits are the devices and folders that an answer is without, by what it is, with in how many nights in a row. What names are in motion or were left
// out differs each night, and is no news.
type Limits map[string]int

// News says what an answer has that the one before it hadn't, and no longer, a line each. Parts of different moments are told once two nights in a row
// have them: an edit at night makes such.
func News(told *summary.Summary, isOfParts bool, before Limits) ([]string, Limits) {
	lines := append(emptied(told), faults(told)...)
	now := Limits{}
	add := func(what summary.LeftOut, called, why string, nights int) {
		key := fmt.Sprintf("%s\x00%s\x00%s\x00%s", called, what.Folder, what.Device, what.Kind)
		now[key] = before[key] + 1
		if before[key]+1 == nights {
			lines = append(lines, outside.Sprintf("%s: %s: %s", called, placeOf(what.Folder, what.Device), why))
		}
	}
	for _, left := range told.LeftOut {
		add(left, "left out", left.Why, 1)
	}
	nights := 1
	if isOfParts {
		nights = 2
	}
	for _, left := range told.Earlier {
		add(left, "of another moment", left.Why, nights)
	}
	ended := 0
	for key := range before {
		if now[key] == 0 {
			ended++
		}
	}
	if ended > 0 && len(now) == 0 {
		lines = append(lines, "no device and no folder is left out any more")
	}
	return lines, now
}

// placeOf names a folder and a device, or one of both.
func placeOf(folder, device string) string {
	switch {
	case folder == "":
		return device
	case device == "":
		return shell.Folder(folder, "")
	}
	return shell.Folder(folder, "") + " of " + device
}

// emptied says from which folders most files went since the last night. It comes before all else.
func emptied(told *summary.Summary) []string {
	lines := []string{}
	if told.Since == nil {
		return lines
	}
	for _, folder := range told.Since.Emptied {
		if folder.IsNew {
			lines = append(lines, outside.Sprintf("%s; if it was wanted: %s", told.WordsOfEmptied(folder, time.Local)[0], told.CommandOfWanted(folder)))
		}
	}
	return lines
}

// faults says which faults are new, which are of names that are deleted since, and which are mended.
func faults(told *summary.Summary) []string {
	lines, since, called := []string{}, told.Since, told.Called()
	if since == nil {
		return lines
	}
	for _, kind := range []struct {
		called string
		all    history.List
	}{{"new", since.New}, {"deleted since", since.Deleted}, {"mended", since.Mended}} {
		for place, fault := range kind.all.First {
			if place == mostNews {
				break
			}
			on := ""
			if fault.Device != "" {
				on = " on " + called(fault.Device)
			}
			lines = append(lines, outside.Sprintf("%s: %s in %s%s: %s%s", kind.called, shell.Path(string(fault.Name)), shell.Folder(fault.Folder, ""), on, fault.Reason,
				told.WordsOfHeld(&kind.all.First[place], time.Local)))
		}
		if kind.all.Count > mostNews {
			lines = append(lines, outside.Sprintf("%s: %d more", kind.called, kind.all.Count-mostNews))
		}
	}
	if since.Unkept != "" {
		lines = append(lines, outside.Sprintf("the history doesn't have all of this night: %s", since.Unkept))
	}
	return lines
}
