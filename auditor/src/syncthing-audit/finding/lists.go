package finding

import (
	"encoding/json"
	"errors"
	"io"
)

// listed is, as JSON, one thing of a folder's long lists. Memory may have no room for such a list. All things stand behind
// an answer, one by one, so neither who writes nor who reads them has all in memory.
type listed struct {
	Folder      int          // its place in the answer
	Unwon       *Unwon       `json:",omitempty"`
	Permissions *Permissions `json:",omitempty"`
	Loose       *Loose       `json:",omitempty"`
	Damaged     *Damaged     `json:",omitempty"`
	IsLast      bool         `json:",omitempty"` // nothing comes behind: the lists are whole
}

// WriteLists writes the long lists of all folders.
func (a *Answer) WriteLists(to *json.Encoder) error {
	var failed error
	write := func(listed listed) {
		if failed == nil {
			failed = to.Encode(listed)
		}
	}
	for place, folder := range a.Folders {
		folder.Unwon.Each(func(unwon *Unwon) { write(listed{Folder: place, Unwon: unwon}) })
		folder.Permissions.Each(func(permissions *Permissions) { write(listed{Folder: place, Permissions: permissions}) })
		folder.Loose.Each(func(loose *Loose) { write(listed{Folder: place, Loose: loose}) })
		folder.Damaged.Each(func(damaged *Damaged) { write(listed{Folder: place, Damaged: damaged}) })
	}
	write(listed{IsLast: true})
	if failed == nil {
		failed = a.Err()
	}
	return failed
}

// ReadLists reads them into an answer whose lists are empty.
func (a *Answer) ReadLists(from *json.Decoder) error {
	for {
		var next listed
		if err := from.Decode(&next); errors.Is(err, io.EOF) {
			return io.ErrUnexpectedEOF
		} else if err != nil {
			return err
		}
		if next.IsLast {
			return a.Err()
		}
		if next.Folder < 0 || next.Folder >= len(a.Folders) {
			return errors.New("a list is of no folder")
		}
		a.Folders[next.Folder].add(&next)
	}
}

// add adds what was read.
func (f *Folder) add(listed *listed) {
	if listed.Unwon != nil {
		f.Unwon.Add(*listed.Unwon)
	}
	if listed.Permissions != nil {
		f.Permissions.Add(*listed.Permissions)
	}
	if listed.Loose != nil {
		f.Loose.Add(*listed.Loose)
	}
	if listed.Damaged != nil {
		f.Damaged.Add(*listed.Damaged)
	}
}
