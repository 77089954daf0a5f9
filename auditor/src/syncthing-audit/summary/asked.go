package summary

import (
	"syncthing-audit/part"
	"syncthing-audit/print"
	"syncthing-audit/shell"
)

// Wanted is what a device's Syncthing says that it still needs of a folder, and at which names it fails.
type Wanted struct {
	Names  int64            `json:"names"`
	Bytes  int64            `json:"bytes"`
	Errors int64            `json:"errors"`
	First  []part.NameError `json:"first_errors,omitempty"`
}

// asked prints what Syncthing itself said of folders where it was asked by --rest, and doesn't stand elsewhere.
func (p *printer) asked(s *Summary) {
	for _, folder := range s.Folders {
		said := print.Places{}
		for _, member := range folder.Devices {
			if member.Wanted != nil {
				said.Add(member.Kind+", "+shell.Printable(member.Rest)+", "+member.Wanted.words(), member.Device)
			}
		}
		said.Each(p.Called, func(words, devices string) {
			p.Line("Syncthing itself says of %s on %s: %s", shell.Folder(folder.ID, folder.Label), devices, words)
		})
	}
}

// words says what Syncthing still needs, and at which names it fails.
func (w *Wanted) words() string {
	told := "needs nothing"
	if w.Names > 0 {
		told = "needs " + counted(w.Names, "name", "names") + " (" + size(w.Bytes) + ")"
	}
	if w.Errors == 0 {
		return told + ", fails at nothing"
	}
	told += ", fails at " + counted(w.Errors, "name", "names")
	if len(w.First) > 0 {
		told += ", first at " + print.Joined(w.First, ", ", func(failed part.NameError) string {
			return shell.Path(string(failed.Name)) + " (" + shell.Printable(failed.Why) + ")"
		})
	}
	return told
}
