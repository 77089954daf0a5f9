package summary

import (
	"golang.org/x/exp/slices"
	"syncthing-audit/damage"
	"syncthing-audit/finding"
	"syncthing-audit/lists"
	"syncthing-audit/part"
)

// Cause is what is wrong with a name on a device.
type Cause string

// Causes.
const (
	OtherBytes    Cause = "other-bytes"     // on the disk, while size and time are as recorded
	Changed       Cause = "changed-on-disk" // since the last scan
	Missing       Cause = "missing-on-disk" // the device's index has it
	Back          Cause = "back-on-disk"    // the device's index has it as deleted
	Behind        Cause = "behind"          // the device hasn't taken what another one has
	Conflicting   Cause = "conflicting"     // changed there and elsewhere, neither on top of the other
	OtherBlocks   Cause = "other-blocks"    // the same bytes, recorded in blocks of another size
	LocalChange   Cause = "local-change"    // on a receive-only folder
	LocalAddition Cause = "local-addition"  // on a receive-only folder; no other device has it
	NotScanned    Cause = "not-scanned"     // on the disk, and in no index
	OnlySeen      Cause = "only-seen"       // another device's index is said to have it
	OtherTime     Cause = "other-time"      // the right bytes with another time or size than recorded
	NewerKnown    Cause = "newer-known"     // the device knows of a version that it could still take
	Permissions   Cause = "permissions"     // beside the verdict
	Damaged       Cause = "damaged"         // the disk itself fails to give what it has
	Differs       Cause = "differs"         // details weren't kept
)

// kinds say of each cause how a person reads it, and what is so of all such faults.
var kinds = map[Cause]struct {
	words    string
	isOfDisk bool // what stands on the disk isn't as recorded
	isDated  bool // a file on the disk tells the time
	canFold  bool // it asks for the same everywhere. What else is wrong is to be looked at file by file
}{
	OtherBytes:    {words: "other bytes on the disk; size and time are as recorded", isOfDisk: true},
	Changed:       {words: "changed on the disk since the last scan", isOfDisk: true, isDated: true},
	Missing:       {words: "missing on the disk", isOfDisk: true, canFold: true},
	Back:          {words: "on the disk, though it is deleted", isOfDisk: true, isDated: true},
	Behind:        {words: "behind: hasn't taken what is newest", canFold: true},
	Conflicting:   {words: "in conflict: has one change of it, and lacks another"},
	OtherBlocks:   {words: "the same bytes, recorded in blocks of another size", canFold: true},
	LocalChange:   {words: "changed on this receive-only device"},
	LocalAddition: {words: "added on this receive-only device; no other has it", isDated: true},
	NotScanned:    {words: "on the disk, and no scan has seen it", isOfDisk: true, isDated: true, canFold: true},
	OnlySeen:      {words: "known from another device, which doesn't have it"},
	OtherTime:     {words: "the recorded bytes with another time than recorded", isOfDisk: true, isDated: true, canFold: true},
	NewerKnown:    {words: "knows of another version that it could still take", canFold: true},
	Damaged:       {words: "the disk fails to give what it has; it may be lost there", isOfDisk: true, canFold: true},
	Differs:       {words: "differs; details weren't kept", isOfDisk: true, canFold: true},
}

// Fault is what is wrong on a device.
type Fault struct {
	Device   string      `json:"device"`
	Cause    Cause       `json:"cause"`
	Kind     string      `json:"kind"`               // of the folder at the device
	Deletion bool        `json:"deletion,omitempty"` // what the device is behind with, or changed, is a deletion
	Due      *State      `json:"due,omitempty"`      // what it should have
	Recorded *State      `json:"recorded,omitempty"`
	Found    *State      `json:"found,omitempty"`  // on its disk
	Damage   damage.Kind `json:"damage,omitempty"` // why what stands on the disk looks like damage, and not like an edit
	Blocks   *Blocks     `json:"blocks,omitempty"`
	Reasons  []string    `json:"reasons"` // in syncaudit's words
	// Of Behind: what is due has other bytes, under the very time of what the device recorded. Rot that a scan took looks so, and an edit that kept the time.
	IsOfOneTime bool   `json:"under_one_time,omitempty"`
	Why         string `json:"why,omitempty"` // of Damaged: the system's words; of OtherBytes and Differs: that the name wasn't compared
	// Other devices on whose disks the very bytes stand that the device recorded, at their time.
	sources    []string
	at         *part.Name   // all that the device has of the name, if that was kept
	due        *part.Record // what it should have
	isOverWire bool         // the device was asked over the wire, where times of files aren't seen
	isTied     bool         // of Behind: it has something else under the version of what is due
	isUntold   bool         // of Behind: its view goes beyond what it lacks, and doesn't have that
}

// State is what a record or a disk says of a name.
type State = finding.State

// Blocks are those of a file that differ from what is recorded, counted from 0.
type Blocks struct {
	Count    int64      `json:"count"`
	Of       int64      `json:"of"` // as recorded or as found, whichever is more
	Size     int64      `json:"size"`
	Ranges   [][2]int64 `json:"ranges"`   // first and last
	Unlisted int64      `json:"unlisted"` // how many of them stand in no range
	Recorded string     `json:"recorded_sha256,omitempty"`
	Found    string     `json:"found_sha256,omitempty"`
}

// onDisk gives how a device's disk differs from its own record; nothing where it doesn't.
func onDisk(at *part.Name) Cause {
	own, disk := at.Own, at.Disk
	isThere := own != nil && !own.Deleted
	switch {
	case !isThere && disk == nil:
		return ""
	case disk != nil && disk.Lost != "" && (own == nil || isThere):
		return Damaged
	case own == nil:
		return NotScanned
	case !isThere:
		return Back
	case disk == nil:
		return Missing
	case own.Type != disk.Type || own.Target != disk.Target:
		return Changed
	case own.Content == nil:
		return ""
	}
	isLate := own.Content.Size != disk.Size || own.ModifiedS != disk.ModifiedS || own.ModifiedNs != disk.ModifiedNs
	switch {
	case at.HasOtherBytes() && isLate:
		return Changed
	case at.HasOtherBytes():
		return OtherBytes
	case isLate:
		return OtherTime
	}
	return ""
}

// blocksOf gives which blocks of a device's file differ from its own record.
func blocksOf(at *part.Name) *Blocks {
	if at.Disk == nil || at.Disk.Differ == nil || at.Own == nil || at.Own.Content == nil {
		return nil
	}
	differ, content := at.Disk.Differ, at.Own.Content
	blocks := &Blocks{Count: differ.Count, Size: content.BlockSize, Ranges: append([][2]int64{}, differ.Ranges...), Unlisted: differ.Unlisted()}
	if content.BlockSize > 0 {
		most := content.Size
		if at.Disk.Size > most {
			most = at.Disk.Size
		}
		blocks.Of = part.CountOfBlocks(most, content.BlockSize)
	}
	if differ.First.Recorded != nil {
		blocks.Recorded = differ.First.Recorded.String()
	}
	if differ.First.Found != nil {
		blocks.Found = differ.First.Found.String()
	}
	return blocks
}

// isCutOtherwise says whether a device has the winner's bytes on its disk and in its record, cut into blocks otherwise.
func isCutOtherwise(at *part.Name, winner *part.Record) bool {
	return at != nil && at.Own != nil && at.Own.Content != nil && at.Disk != nil && !at.HasOtherBytes() && winner.Content != nil && slices.Contains(at.Disk.Contents, *winner.Content)
}

// isOfOneTime says whether two records of a file have other bytes under one time. Of the same bytes, cut into blocks of another size, the hashes tell nothing.
func isOfOneTime(own, due *part.Record) bool {
	if own == nil || due == nil || own.Deleted || due.Deleted || own.Content == nil || due.Content == nil || own.Content.Size == 0 {
		return false
	}
	isSameCut := own.Content.Size == due.Content.Size && own.Content.BlockSize != due.Content.BlockSize
	return own.ModifiedS == due.ModifiedS && own.ModifiedNs == due.ModifiedNs && *own.Content != *due.Content && !isSameCut
}

// has says whether this is so of some fault.
func (f *File) has(is func(fault *Fault) bool) bool { return lists.Has(f.Faults, is) }

// hasAt says whether a device has a fault of one of these causes; of any cause without them.
func (f *File) hasAt(device string, causes ...Cause) bool {
	return f.has(func(fault *Fault) bool {
		return fault.Device == device && (len(causes) == 0 || slices.Contains(causes, fault.Cause))
	})
}

// isDeletionDue says whether what all are to have of the name is its deletion.
func (f *File) isDeletionDue() bool { return f.has((*Fault).lacksDeletion) }

func (f *Fault) lacksDeletion() bool { return f.Due != nil && f.Due.Deleted }

// looksDamaged says whether on some device what stands in place of what is recorded looks like damage.
func (f *File) looksDamaged() bool { return f.has((*Fault).looksDamaged) }

func (f *Fault) looksDamaged() bool { return f.Cause == Changed && f.Damage != damage.None }

// isOfNobody says whether the name has no winner, so that there is nothing that devices should have.
func (f *File) isOfNobody() bool {
	return f.has(func(fault *Fault) bool { return len(fault.Reasons) == 1 && fault.Reasons[0] == "NotWinner" })
}

// isWithout says whether a device that is behind has no record of the name.
func (f *Fault) isWithout() bool {
	return f.Cause == Behind && f.Recorded == nil && slices.Contains(f.Reasons, "RecordMissing")
}

// isAlone says whether it is a device's own disk and index that differ, of a name that wasn't compared with what others have.
func (f *Fault) isAlone() bool { return f.Cause == OtherBytes && f.Why != "" }

// isFileForFile says whether a file stands where a file is recorded.
func (f *Fault) isFileForFile() bool { return f.types() == "file file" }

// isOlder says whether an older file than recorded stands on the disk, as after a backup was put back. A scan takes it for the latest change.
func (f *Fault) isOlder() bool {
	return f.Cause == Changed && f.isFileForFile() && f.Damage == damage.None && !f.isOverWire && f.Found.Modified.Before(*f.Recorded.Modified)
}

// types gives what is recorded and what stands on the disk, where both are known.
func (f *Fault) types() string {
	if f.Recorded == nil || f.Found == nil {
		return ""
	}
	return f.Recorded.Type + " " + f.Found.Type
}
