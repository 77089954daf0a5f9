package page

import (
	"time"

	"golang.org/x/exp/slices"
	"syncthing-audit/finding"
	"syncthing-audit/outside"
	"syncthing-audit/shell"
	"syncthing-audit/summary"
)

// Answer is the last answer of an audit, and what it saw.
type Answer struct {
	Audit   string    `json:"audit"` // its name; nothing where there is one alone
	At      time.Time `json:"at"`
	Status  int       `json:"status"`
	Text    string    `json:"text"` // as a person reads it
	Seen    time.Time `json:"seen"` // when the devices and folders were answered for; zero where they never were
	Devices []Device  `json:"devices"`
	Folders []Folder  `json:"folders"`
	LeftOut []Left    `json:"left_out"`
}

// Left is a device or a folder that was left out.
type Left struct {
	What string `json:"what"`
	Why  string `json:"why"`
}

// Device is a device that was audited.
type Device struct {
	ID   string    `json:"id"`
	Name string    `json:"name"`
	Read time.Time `json:"read"`
}

// Folder is a folder with what was found of it.
type Folder struct {
	ID      string `json:"id"`
	Called  string `json:"called"`
	Verdict string `json:"verdict"`
	Names   int64  `json:"names"`
	Wrong   int64  `json:"wrong"`
	Moving  int64  `json:"in_motion"`
	Cells   []Cell `json:"cells"`
}

// Cell is what was found of a folder on a device.
type Cell struct {
	Device  string `json:"device"` // its id
	LeftOut string `json:"left_out"`
	Wrong   int64  `json:"wrong"`
	IsLeast bool   `json:"at_least"` // whether more names may be wrong there

	Files      int64     `json:"files"` // of which the history has when they were read
	Bytes      int64     `json:"bytes"`
	Oldest     time.Time `json:"oldest"`
	OldestName string    `json:"oldest_name"`
}

// AnswerOf gives what a page has of an answer; without one, of why there is none.
func AnswerOf(audit string, at time.Time, status int, text string, told *summary.Summary) Answer {
	answer := Answer{Audit: audit, At: at, Status: status, Text: text}
	if told == nil {
		return answer
	}
	answer.Seen = at
	for _, device := range told.Devices {
		answer.Devices = append(answer.Devices, Device{device.ID, outside.Escaped(device.Name), device.Read})
	}
	for _, folder := range told.Folders {
		answer.Folders = append(answer.Folders, folderOf(told, folder))
	}
	answer.addLeftOut(append(append([]summary.LeftOut{}, told.LeftOut...), told.Earlier...))
	return answer
}

// folderOf gives a folder with its devices.
func folderOf(told *summary.Summary, folder *summary.Folder) Folder {
	shown := Folder{ID: folder.ID, Called: shell.Folder(folder.ID, folder.Label), Verdict: verdictOf(folder), Names: folder.Names, Wrong: folder.Wrong}
	if folder.Live != nil {
		shown.Moving = folder.Live.Moving
	}
	wrong, listed := wrongAt(folder)
	for _, member := range folder.Devices {
		cell := Cell{Device: member.Device, Wrong: wrong[member.Device], IsLeast: listed < folder.Wrong}
		if told.Since != nil {
			for _, read := range told.Since.Read {
				if read.Folder == folder.ID && read.Device == member.Device {
					cell.Files, cell.Bytes, cell.Oldest, cell.OldestName = read.Files, read.Bytes, read.Oldest, shell.Path(string(read.OldestName))
				}
			}
		}
		shown.Cells = append(shown.Cells, cell)
	}
	return shown
}

// wrongAt counts the names that are wrong at each device as far as they are listed, and all that are listed.
func wrongAt(folder *summary.Folder) (map[string]int64, int64) {
	counts, listed := map[string]int64{}, int64(0)
	for _, file := range folder.Files {
		at := []string{}
		for _, fault := range file.Faults {
			if !slices.Contains(at, fault.Device) {
				at = append(at, fault.Device)
				counts[fault.Device]++
			}
		}
		if len(at) > 0 {
			listed++
		}
	}
	for _, group := range folder.Groups {
		for _, device := range group.Devices {
			counts[device] += group.Names
		}
		listed += group.Names
	}
	return counts, listed
}

// verdictOf says in words how a folder is.
func verdictOf(folder *summary.Folder) string {
	switch {
	case folder.Verdict == summary.NotInStep:
		return NotInStep
	case folder.Verdict == summary.AsFar:
		return AsFar
	case folder.Firm == finding.IsFirm:
		return "in step and firm"
	}
	return InStep
}

// What is said of a folder and of a night.
const (
	InStep    = "in step"
	AsFar     = "in step as far as audited"
	NotInStep = "NOT in step"
)

// addLeftOut adds what was left out: to the list of that and, of a folder on a device, to its cell.
func (a *Answer) addLeftOut(all []summary.LeftOut) {
	for _, leftOut := range all {
		why, called := outside.Escaped(leftOut.Why), outside.Escaped(leftOut.Device)
		if leftOut.Folder != "" {
			called = shell.Folder(leftOut.Folder, "")
			if leftOut.Device != "" {
				called += " of " + outside.Escaped(leftOut.Device)
			}
		}
		a.LeftOut = append(a.LeftOut, Left{called, why})
		if leftOut.Device == "" {
			continue
		}
		for at := range a.Folders {
			if folder := &a.Folders[at]; folder.ID == leftOut.Folder {
				folder.leaveOut(a.columnOf(leftOut.Device), why)
			}
		}
	}
}

// columnOf gives the id of a device that is named by that or by its name. One that wasn't audited has a column, too.
func (a *Answer) columnOf(word string) string {
	word = outside.Escaped(word)
	for _, device := range a.Devices {
		if device.ID == word || device.Name == word {
			return device.ID
		}
	}
	a.Devices = append(a.Devices, Device{ID: word})
	return word
}

// leaveOut notes why a folder is left out on a device.
func (f *Folder) leaveOut(device, why string) {
	for at := range f.Cells {
		if cell := &f.Cells[at]; cell.Device == device {
			cell.LeftOut = why
			return
		}
	}
	f.Cells = append(f.Cells, Cell{Device: device, LeftOut: why})
}
