package part

import (
	"errors"
	"fmt"
	"sort"

	"golang.org/x/exp/slices"
)

// Wire says that an observer made a part over the wire, and what it couldn't see so. An audit asks nothing of that.
type Wire struct {
	Observer string   `json:"observer"` // its device id: it shares the folders, and keeps no files
	Unseen   []string `json:"unseen"`   // rising

	// The highest sequence of an index of the device at an earlier look, where that has gone back behind it; 0 where none has. Of several folders it is
	// the greatest, and each folder says its own.
	WentBackFrom int64 `json:"went_back_from,omitempty"`

	Without []Without `json:"without,omitempty"` // rising by folder

	IsPartial bool `json:"partial,omitempty"` // the bytes of some files weren't asked for this time: their names say so

	Half string `json:"disk_half,omitempty"` // the id of the part of the device's disks that was over when the second look began; it has what stands there
}

// Without is a folder that was asked for, and that the device doesn't show the observer.
type Without struct {
	Folder      string `json:"folder"`
	Why         string `json:"why"`
	IsEncrypted bool   `json:"encrypted,omitempty"`
}

// WhyWithout says why a part that an observer made is without a folder; nothing where it doesn't say so.
func (h *Head) WhyWithout(folder string) *Without {
	if h.Wire == nil {
		return nil
	}
	for place := range h.Wire.Without {
		if h.Wire.Without[place].Folder == folder {
			return &h.Wire.Without[place]
		}
	}
	return nil
}

// What isn't seen over the wire.
const (
	UnseenBytes = "bytes" // what stands on the disks, since records alone were asked for
	UnseenKind  = "kinds" // whether a folder only receives, unless a record is a local change
	UnseenScans = "scans" // whether one is under way

	UnseenPermissions = "permissions"
)

// AlwaysUnseen is what no observer sees, rising: what stands where a directory or a symlink is recorded, the folders' kinds, permissions, whether a scan
// is under way, the times of files, and names that no scan has taken.
var AlwaysUnseen = []string{"directories", UnseenKind, UnseenPermissions, UnseenScans, "symlinks", "times", "unscanned"}

// NewWire gives the mark of a part that an observer makes.
func NewWire(observer string, isOfRecords bool) *Wire {
	wire := &Wire{Observer: observer, Unseen: append([]string{}, AlwaysUnseen...)}
	if isOfRecords {
		wire.Unseen = append(wire.Unseen, UnseenBytes)
		sort.Strings(wire.Unseen)
	}
	return wire
}

// WithoutAsked takes out what Syncthing itself was asked of each folder: of which kind it is, and what Syncthing does there.
func (w *Wire) WithoutAsked() {
	kept := []string{}
	for _, word := range w.Unseen {
		if word != UnseenKind && word != UnseenScans {
			kept = append(kept, word)
		}
	}
	w.Unseen = kept
}

// IsAsked says whether Syncthing itself was asked of each folder.
func (h *Head) IsAsked() bool {
	return slices.IndexFunc(h.Folders, func(folder Folder) bool { return folder.Rest == nil }) < 0
}

// IsOverWire says whether an observer made the part.
func (h *Head) IsOverWire() bool { return h.Wire != nil }

// IsOverWireAlone says whether what an observer saw is all that is known of the device: no part of its disks stands beside that.
func (h *Head) IsOverWireAlone() bool { return h.Wire != nil && h.Half == nil }

// IsOfRecords says whether no bytes on the device's disks were read.
func (h *Head) IsOfRecords() bool {
	return h.Wire != nil && slices.Contains(h.Wire.Unseen, UnseenBytes)
}

// checkWire says why the mark of an observer is none. What a newer program doesn't see this one would ask for.
func checkWire(head *Head) error {
	if head.Wire == nil {
		return nil
	}
	if head.Wire.WentBackFrom < 0 || slices.IndexFunc(head.Folders, func(folder Folder) bool { return folder.WentBackFrom < 0 }) >= 0 {
		return errors.New("the part's index went back from a sequence below 0")
	}
	if head.Wire.IsPartial && (head.IsOfRecords() || head.Wire.Half != "") {
		return errors.New("the part has the bytes of some files, and of none")
	}
	if len(head.Wire.Without) > mostFolders {
		return fmt.Errorf("the part says of %d folders that it is without them: at most %d are taken", len(head.Wire.Without), mostFolders)
	}
	if Number(head.Wire.Observer) == 0 || head.Wire.Observer == head.Device {
		return fmt.Errorf("the part's observer %q is none", head.Wire.Observer)
	}
	if err := checkHalfOfWire(head); err != nil {
		return err
	}
	due := NewWire("", head.IsOfRecords())
	if head.IsAsked() && len(head.Folders) > 0 {
		due.WithoutAsked()
	}
	if !slices.Equal(head.Wire.Unseen, due.Unseen) {
		return errors.New("what isn't seen in the part isn't what this program knows of: use the version that made it")
	}
	return nil
}

// checkWireLook says why a look over the wire is none. An observer looks twice, and its part is of both looks.
func checkWireLook(head *Head) error {
	look := head.Look
	if look == nil || look.ID == "" || look.Home == "" || look.After[head.Device] != look.ID || look.At.IsZero() || look.Ended.Before(look.At) {
		return errors.New("the part is made over the wire, and its looks are none")
	}
	return nil
}

// checkWireName says what an observer can't have seen of a name.
func checkWireName(name *Name, wire *Wire, isOfRecords bool) error {
	switch {
	case name.NotRead && (wire == nil || !wire.IsPartial):
		return errors.New("its bytes weren't read, and the part has the bytes of all files")
	case name.Differ != nil && (wire == nil || wire.Half == ""):
		return errors.New("it says which blocks differ of a file in another part, and there is none")
	case name.Differ != nil && (name.Own == nil || name.Own.Content == nil):
		return errors.New("its blocks differ, and there is no file with a record")
	case name.Differ != nil && checkRanges(name.Differ, CountOfBlocks(name.Own.Content.Size, name.Own.Content.BlockSize)) != nil:
		return checkRanges(name.Differ, CountOfBlocks(name.Own.Content.Size, name.Own.Content.BlockSize))
	case wire == nil:
		return nil
	case (isOfRecords || name.NotRead) && name.Disk != nil:
		return errors.New("more is told of its disk than its record, and no bytes were asked for")
	case len(name.Views) > 0:
		return errors.New("it has records in views, which an observer isn't told")
	case name.Disk == nil:
		return nil
	case !isFile(name.Disk.Type) || name.Disk.ModifiedS != 0 || name.Disk.ModifiedNs != 0 || name.Disk.Permissions != 0 || name.Disk.Stamp != "" || name.Disk.Lost != "" || name.Disk.Link != 0:
		return errors.New("more is told of its disk than an observer sees")
	}
	return nil
}
