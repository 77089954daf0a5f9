package part

import (
	"errors"
	"fmt"
	"time"

	"golang.org/x/exp/slices"
)

// Look says which of two looks at a device that may run a part is of.
type Look struct {
	Home  string            `json:"home"`            // the same for one home of one machine alone
	ID    string            `json:"id,omitempty"`    // of a first look: random, made when the look was over
	After map[string]string `json:"after,omitempty"` // of a second look: by device the first looks that were over when it began
	At    time.Time         `json:"at"`              // by the device's clock: when the first look was over, or the second one began
	Ended time.Time         `json:"ended,omitempty"` // of two looks that were joined: when the second one began
}

// What changed at a device while it was looked at, or waits there.
const (
	MovedRecord    = "record"    // the device's own record
	MovedViews     = "views"     // what it knows of another device's
	MovedDisk      = "disk"      // what stands on the disk
	MovedReceiving = "receiving" // the temporary file of what is being received
	MovedLater     = "later"     // what changed after the part was made, as another device knows; no part says this of itself
	MovedUnscanned = "unscanned" // the disk isn't as the record says, by kind, size, time or target
)

// IsFirst says whether a part is of a first look.
func (l *Look) IsFirst() bool { return l.ID != "" && l.After == nil }

// IsSecond says whether it is of a second one.
func (l *Look) IsSecond() bool { return l.ID == "" && l.After != nil }

// checkLook says why a look is none.
func checkLook(head *Head) error {
	if head.Half != nil {
		return checkHalfHead(head)
	}
	if head.Wire != nil {
		return checkWireLook(head)
	}
	if head.Look != nil && (head.Look.Home == "" || head.Look.IsFirst() == head.Look.IsSecond()) {
		return errors.New("the part's look is none")
	}
	return nil
}

// hasBytes says whether files have contents in a part: a second look reads none.
func (h *Head) hasBytes() bool { return h.Look == nil || !h.Look.IsSecond() }

// Mark gives a text that stays as it is while nobody changes what stands on the disk. Of a directory it is its kind, its
// permissions and which directory it is: what stands in it has names of its own.
func (n *Node) Mark() string {
	switch {
	case n == nil:
		return ""
	case isFile(n.Type) || n.Type == symlink:
		return fmt.Sprint(n.Type, n.Size, n.ModifiedS, n.ModifiedNs, n.Permissions, n.Stamp, n.Target)
	}
	return fmt.Sprint(n.Type, n.Permissions, " ", n.Stamp)
}

// IsAsRecorded says whether what stands on the disk is what the own record says, by kind, size, time and target. Times within the window are one.
func (n *Name) IsAsRecorded(window time.Duration) bool {
	own, disk := n.Own, n.Disk
	if own == nil || own.Deleted {
		return disk == nil
	}
	if disk == nil || own.Type != disk.Type || own.Target != disk.Target {
		return false
	}
	return own.Content == nil || n.HasNearTime(window) || own.Content.Size == disk.Size && own.ModifiedS == disk.ModifiedS && own.ModifiedNs == disk.ModifiedNs
}

// IsDamaged says whether the disk itself fails to give what it has of a name.
func (n *Name) IsDamaged() bool {
	return n.Disk != nil && n.Disk.Lost != "" || slices.IndexFunc(n.Out, func(out LeftOut) bool { return out.Kind == Damaged }) >= 0
}

// HasOtherBytes says whether a file on the disk has other bytes than recorded. A part may say it without which blocks differ: a walk of disks knows no
// record.
func (n *Name) HasOtherBytes() bool {
	own, disk := n.Own, n.Disk
	if own == nil || own.Content == nil || disk == nil {
		return false
	}
	for _, found := range disk.Contents {
		if found.IsCutAs(own.Content) {
			return !found.IsSame(own.Content)
		}
	}
	return disk.Differ != nil
}

// WhyIgnored says why a name is left out that .stignore keeps out.
const WhyIgnored = "it is ignored there by .stignore"

// WhyIgnoredBefore says why a name is left out that the index has as ignored, and that .stignore doesn't keep out any more.
const WhyIgnoredBefore = "its index has it as ignored, but .stignore doesn't ignore it now: the next scan takes what stands there"

// WhyIgnoredElsewhere says why a name is left out of which another device, as this one knows it, tells neither size nor blocks.
const WhyIgnoredElsewhere = "it knows that another device ignores it, or has still to scan it"

// isElsewhere says whether something is left out that another device has, and not this one.
func (l *LeftOut) isElsewhere() bool { return l.Kind == Ignored && l.Why == WhyIgnoredElsewhere }

// IsIgnoredBefore says whether the index alone has a name as ignored at the device, so that the next scan takes it.
func (n *Name) IsIgnoredBefore() bool {
	return slices.IndexFunc(n.Out, func(out LeftOut) bool { return out.Why == WhyIgnoredBefore }) >= 0
}

// IsIgnored says whether .stignore keeps a name out of the folder at the device, whatever its file does.
func (n *Name) IsIgnored() bool {
	return slices.IndexFunc(n.Out, func(out LeftOut) bool { return out.Kind == Ignored && !out.isElsewhere() }) >= 0
}

// IsToldHere says whether a part leaves out nothing that the device itself has of a name: its own record, and what stands on its disk.
func (n *Name) IsToldHere() bool {
	return slices.IndexFunc(n.Out, func(out LeftOut) bool { return !out.isElsewhere() }) < 0
}
