package finding

import (
	"golang.org/x/exp/slices"
	"syncthing-audit/join"
)

// ConvergeReasons are why a folder doesn't come right by itself, in the order in which they are told.
var ConvergeReasons = []string{"NothingPrevails", "Concurrent", "ContentDiffers", "LocalOnly", "StoreUnclean", "StoreDiffers", "SendOnly", "WouldCopy"}

// Convergence is what syncaudit says of the names that aren't firm: whether they come right by themselves.
type Convergence struct {
	First *Failure // what is told first to hinder it; nothing where it converges
	Pairs *int64   // how many pairs of a name and a device aren't yet at what prevails; nothing where there are no such names
}

// Converging says how it stands with a folder that isn't in step, in a word.
type Converging string

// How it stands with it. The folder converges if all its names that aren't firm do.
const (
	Converges        Converging = "converging"
	NotConverging    Converging = "not-converging"
	ConvergeNotKnown Converging = "not-known" // what was asked for converges, and something wasn't audited or may change without a record
)

// Take takes what syncaudit says of further names: the first hindrance of both is kept.
func (c *Convergence) Take(next Convergence) {
	if next.Pairs != nil {
		sum := *next.Pairs
		if c.Pairs != nil {
			sum += *c.Pairs
		}
		c.Pairs = &sum
	}
	if c.First == nil || next.First != nil && IsBefore(next.First, c.First, ConvergeReasons) {
		c.First = next.First
	}
}

// HowConverging says how it stands with a folder; nothing if it is in step. What no row has hinders it, too: a name
// without a winner, and one that a disk fails to give.
func (a *Answer) HowConverging(folder *Folder) Converging {
	switch {
	case !folder.HasFailures():
		return ""
	case folder.Convergence.First != nil || folder.Unwon.Len() > 0 || folder.Damaged.Len() > 0:
		return NotConverging
	case folder.Convergence.Pairs == nil || !a.IsWhole(folder) || a.IsPart(folder) || folder.mayGetOtherRecords() || folder.hasBarred():
		return ConvergeNotKnown
	}
	return Converges
}

// mayGetOtherRecords says whether something that no row tells may bring records to the folder beside those that it has. An index that is to be repaired
// does, and a scan that records owners, attributes or other permissions. So does something else of Syncthing that writes into the folder's directory, and
// a file with several names: a time that is set at one of them is set at all.
func (f *Folder) mayGetOtherRecords() bool {
	return f.hasOtherPermissions() || slices.IndexFunc(f.Members, func(member join.Member) bool {
		return member.Device != nil && member.About != nil && (member.Head.ToRepair || member.About.ScansAttributes || len(member.About.Writers) > 0 || member.Links > 0)
	}) >= 0
}

// hasBarred says whether a device's system can't have some name: it never takes what prevails of it.
func (f *Folder) hasBarred() bool {
	return slices.IndexFunc(f.Members, func(member join.Member) bool { return member.Barred > 0 }) >= 0
}

// hasOtherPermissions says whether a name has other permissions on a disk than its device recorded.
func (f *Folder) hasOtherPermissions() bool {
	found := false
	f.Permissions.Each(func(name *Permissions) {
		found = found || slices.IndexFunc(name.At, func(bits Bits) bool { return bits.OnDisk && bits.Disk != bits.Index }) >= 0
	})
	return found
}
