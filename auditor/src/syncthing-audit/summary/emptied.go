package summary

import (
	"time"

	"syncthing-audit/history"
	"syncthing-audit/lists"
	"syncthing-audit/print"
	"syncthing-audit/shell"
)

// WordsOfEmptied say that most files of a folder are gone, since when, and what to do that loses nothing more.
func (s *Summary) WordsOfEmptied(emptied history.Emptied, zone *time.Location) []string {
	folder := s.folder(emptied.Folder)
	lines := []string{"GONE: " + wordsOfGone(&emptied, zone)}
	for _, holder := range emptied.Held {
		name := folder.nameOff(holder.Device)
		lines = append(lines, name+" had "+thousands(holder.Files)+" of them when it was read on "+dayOf(holder.Read, zone)+", and isn't asked now: don't start Syncthing there, which would delete them, before they are copied elsewhere")
	}
	find := s.onHistory("find", emptied.Folder) + " NAME BACKUP"
	return append(lines, "if nobody wanted that: stop Syncthing on all devices of the folder, before it cleans old versions and before a device that is off deletes them, too. Then look on each device among "+
		versions(s.Called(), folder)+", and into backups and snapshots, and copy elsewhere what is there ("+find+" says where the bytes stand). It is told until "+
		dayOf(emptied.Found.AddDate(0, 0, history.DaysOfEmptied), zone))
}

// wordsOfGone say which files went, and when.
func wordsOfGone(emptied *history.Emptied, zone *time.Location) string {
	names := print.Joined(lists.AtMost(mostNews, emptied.First), ", ", func(name Text) string { return shell.Quoted(string(name)) })
	if more := emptied.Files - mostNews; more > 0 {
		names += " and " + thousands(more) + " more"
	}
	return thousands(emptied.Files) + " of " + counted(emptied.Of, "file", "files") + " in " + shell.Folder(emptied.Folder, "") + " went from all devices that were asked after " +
		dayOf(emptied.Since, zone) + ", as the audit of " + dayOf(emptied.Found, zone) + " found: " + names
}

// WordsOfIntended say what was noted as wanted.
func WordsOfIntended(emptied *history.Emptied, zone *time.Location) string {
	return wordsOfGone(emptied, zone) + ". It was wanted, so it isn't told any more. What goes later is told"
}

// CommandOfWanted gives the command that notes that somebody wanted it.
func (s *Summary) CommandOfWanted(emptied history.Emptied) string {
	return s.onHistory("wanted", emptied.Folder) + " " + emptied.Found.UTC().Format(time.RFC3339)
}

// onHistory begins a command on the history and a folder.
func (s *Summary) onHistory(command, folder string) string {
	directory := "DIR"
	if s.Since.Directory != "" {
		directory = shell.Path(s.Since.Directory)
	}
	return "syncthing-audit " + command + " --history " + directory + " --folder " + shell.Path(folder)
}

// folder gives a folder of the answer by its id.
func (s *Summary) folder(id string) *Folder {
	for _, folder := range s.Folders {
		if folder.ID == id {
			return folder
		}
	}
	return &Folder{ID: id}
}

// emptied tells, before all else, of folders from which most files went.
func (p *printer) emptied(s *Summary) {
	if s.Since == nil {
		return
	}
	for _, emptied := range s.Since.Emptied {
		for place, line := range s.WordsOfEmptied(emptied, p.Zone) {
			if place > 0 {
				p.running("  to do:", line+".")
			} else {
				p.Line("%s", line)
			}
		}
		p.Line("  if it was wanted: %s", s.CommandOfWanted(emptied))
	}
	if len(s.Since.Emptied) > 0 {
		p.Line("")
	}
}

// WordsOfHeld say which devices had which bytes of a name that is deleted by now; nothing where none was read.
func (s *Summary) WordsOfHeld(told *history.Told, zone *time.Location) string {
	if len(told.Held) == 0 {
		return ""
	}
	folder, called := s.folder(told.Folder), s.Called()
	return "; read last: " + print.Joined(told.Held, ", ", func(held history.Held) string {
		name := called(held.Device)
		if held.IsOff {
			name = folder.nameOff(held.Device)
		}
		words := name + " had " + size(held.Size) + " on " + dayOf(held.Read, zone) + " (SHA-256 of its blocks " + held.Hash[:8] + "..)"
		if held.IsOff {
			words += ", and isn't asked now"
		}
		return words
	})
}

// dayOf gives a time as a person reads it in a history.
func dayOf(at time.Time, zone *time.Location) string { return at.In(zone).Format("2006-01-02 15:04") }
