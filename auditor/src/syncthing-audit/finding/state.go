package finding

import (
	"time"

	"github.com/syncthing/syncthing/lib/protocol"
	"syncthing-audit/part"
)

// State is what a record or a disk says of a name.
type State struct {
	Type     string     `json:"type"`
	Deleted  bool       `json:"deleted,omitempty"`
	Size     int64      `json:"size"`
	Modified *time.Time `json:"modified,omitempty"` // nothing for a record of a symlink, in which Syncthing stores no time
	Target   string     `json:"target,omitempty"`
	Unread   int64      `json:"unread,omitempty"` // of a disk: bytes at the end that weren't hashed
}

func typeOf(number int) string {
	switch protocol.FileInfoType(number) {
	case protocol.FileInfoTypeDirectory:
		return "directory"
	case protocol.FileInfoTypeFile:
		return "file"
	}
	return "symlink"
}

// Recorded gives the state that a record says; nothing without one.
func Recorded(record *part.Record) *State {
	if record == nil {
		return nil
	}
	state := &State{Type: typeOf(record.Type), Deleted: record.Deleted, Target: record.Target}
	if record.Deleted || record.Type != int(protocol.FileInfoTypeSymlink) {
		state.Modified = timeOf(record.ModifiedS, record.ModifiedNs)
	}
	if record.Content != nil {
		state.Size = record.Content.Size
	}
	return state
}

// Found gives the state on a disk; nothing where nothing stands.
func Found(node *part.Node) *State {
	if node == nil {
		return nil
	}
	return &State{Type: typeOf(node.Type), Size: node.Size, Modified: timeOf(node.ModifiedS, node.ModifiedNs), Target: node.Target, Unread: node.Unread}
}

func timeOf(seconds int64, nanoseconds int) *time.Time {
	at := time.Unix(seconds, int64(nanoseconds))
	return &at
}
