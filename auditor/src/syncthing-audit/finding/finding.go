// Package finding has what an audit found, for those who print it.
package finding

import (
	"time"

	"golang.org/x/exp/slices"
	"syncthing-audit/choice"
	"syncthing-audit/join"
	"syncthing-audit/outlook"
	"syncthing-audit/part"
	"syncthing-audit/spill"
)

// Answer is what was found in all folders.
type Answer struct {
	Devices   []Device
	Folders   []*Folder
	Refusals  []Refusal        // what isn't audited, of a strict audit: with any of these there is no verdict; the first MostListed
	Unlisted  map[string]int64 // how many more refusals there are of each kind than are listed
	LeftOut   []Refusal        // devices and folders that were left out
	Earlier   []Refusal        `json:",omitempty"` // devices whose parts are of an earlier moment than others: names that changed since are in motion
	Observers []join.Observer  `json:",omitempty"` // devices that share a folder of these, keep no files of it, and aren't asked
	IsByName  bool             // whether the folders were asked for by their ids
	ByNames   bool             // whether the names were asked for by how they begin
	IsSum     bool             `json:"-"` // whether 'sum' joined it, which has no parts to tell details of what syncaudit tells
}

// Device is a device that was audited.
type Device struct {
	ID     string
	Number uint64
	Name   string
	Runs   string    // the version of Syncthing that was started there last, as far as its part tells
	Made   time.Time // when its part was made
	From   string    // the home or file that it was read from
	Index  *part.Index
	Newer  *part.Newer

	ToRepair   bool // whether Syncthing is to repair its index at its next start
	IsUnsigned bool // whether it was read from a part whose signature nobody checked

	Unasked  []Unasked // folders of it that weren't asked for
	IsSilent bool      // whether its part doesn't say which folders it hasn't
	OverWire bool      // whether it was asked over the wire
}

// Unasked is a folder that a device has and that wasn't audited, since nobody asked for it.
type Unasked struct {
	ID, Label string
	InPart    bool // whether the device's part has it
}

// Folder is what was found in a folder. As JSON it lacks the long lists, which WriteLists writes.
type Folder struct {
	ID, Label   string
	Own         string                  `json:",omitempty"` // the one device, where that shares its folder with nobody: others may have theirs of this id
	IsOut       bool                    `json:",omitempty"` // whether its one device is left out of what is compared, as join.Folder has it
	Members     []join.Member           // their numbers rising; the rows' places are theirs
	Names       int64                   // known ones, those without a winner included
	Deleted     int64                   // of these what no device holds
	Deleting    int64                   // of these what is deleted, and a device hasn't taken that yet
	Bytes       int64                   // that were hashed on all devices together
	Documents   int                     // in how many pieces its names were asked: streams of rows, or documents
	Failures    Failures                `json:"-"` // what syncaudit tells
	Unwon       spill.List[Unwon]       `json:"-"` // names without a winner, rising; each is a failure, too
	Permissions spill.List[Permissions] `json:"-"` // rising
	Damaged     spill.List[Damaged]     `json:"-"` // rising: what a disk itself fails to give; each is a failure, too
	NotFirm     *Failure                `json:"-"` // what syncaudit tells first to keep a settled folder from being firm
	Convergence Convergence             `json:"-"`
	Loose       spill.List[Loose]       `json:"-"` // rising: what keeps a settled folder from being firm
	Conflicts   []Conflict              // copies that a device still has, whether they are in step or not: the first MostListed
	LeftOut     []*LeftOut              // names that were left out: the first MostListed
	Unlisted    Unlisted
	Outside     Count                // names that each device which has them ignores: Syncthing doesn't take them for the folder's
	Live        *Live                // of devices that were looked at while they ran
	Outlook     *outlook.Outlook     `json:",omitempty"` // what happens if nobody does anything
	Rows        map[string]*join.Row // of names that something is told of, as far as a room allowed
}

// MostListed is how many refusals, conflict copies and names that are left out are listed one by one; more are counted.
const MostListed = 10000

// Unlisted counts what isn't listed one by one.
type Unlisted struct{ Conflicts, LeftOut Count }

// Count is of names.
type Count = part.Count

// Failure is a reason why a folder isn't settled, at a name and, from RecordMissing on, a device.
type Failure struct {
	Reason string
	Name   string
	Device uint64 // 0 for none
}

// Unwon is a name without a winner: no device has a record of it that others may take.
type Unwon struct {
	Name string
	At   []Cause
}

// Cause says what a device has of a name without a winner.
type Cause struct {
	Member int
	Kind   string // Unscanned, LocalChange or OnlySeen
}

// Why a name has no winner at a device.
const (
	Unscanned   = "unscanned"    // it stands on the disk, and the index has no record of it
	LocalChange = "local change" // it was changed on a receive-only folder
	OnlySeen    = "only seen"    // another device's index is said to have it
)

// Permissions are those of a name that differ between disk and index, or between devices.
type Permissions struct {
	Name string
	At   []Bits // one for each member; those that have none or ignore them are false
}

// Bits are the permissions of a name at a member.
type Bits struct {
	Has, OnDisk bool
	Index, Disk uint32
}

// Conflict is the copy that Syncthing kept of a file that lost to another version.
type Conflict struct {
	Name  part.Bytes `json:"name"`
	Bytes int64      `json:"bytes"`
}

// LeftOut is a name that wasn't audited, or all names below it.
type LeftOut struct {
	Name  part.Bytes `json:"name"`
	Below bool       `json:"below"` // Name ends with a slash, and all names that begin so are meant
	Names int64      `json:"names"`
	Bytes int64      `json:"bytes"`
	Why   []Reason   `json:"why"`
}

// Reason is why a name wasn't audited.
type Reason struct {
	Device string `json:"device,omitempty"` // by its id; without one it is of all
	Kind   string `json:"kind"`
	Why    string `json:"why"`
}

// Refusal is why a name, a device or a folder isn't audited.
type Refusal struct {
	Folder string `json:"folder"`
	Label  string `json:"label,omitempty"` // of the folder
	Device string `json:"device"`          // as a person knows it
	Name   string `json:"name,omitempty"`
	Kind   string `json:"kind"` // that --leave-out names; none where it can't be left out
	Why    string `json:"why"`

	WentBack bool `json:"went_back,omitempty"` // whether the device's index is older than what another one knows of it, and was read no earlier

	ID string `json:"-"` // of the device; nothing where it isn't known, or where this was read from an export
}

// Reasons are why a folder isn't settled, in the order in which they are told.
var Reasons = []string{"CertificateOrder", "NameMissing", "NameUnknown", "NotWinner", "RecordMissing", "RecordDiffers",
	"LocalOnly", "StoreDiffers", "StoreUnclean", "ViewAhead", "FlightAhead", "PullAhead"}

// Place gives the place of a reason in that order, or -1.
func Place(reason string) int { return slices.Index(Reasons, reason) }

// AllReasons are why a folder isn't firm, in the order in which they are told: what keeps it from being settled comes first.
var AllReasons = append(append([]string{}, Reasons...), FirmReasons...)

// First gives the failure that is told first, of those whose reasons stand in this order; nothing of none.
func First(failures []Failure, order []string) *Failure {
	var first *Failure
	for place := range failures {
		if first == nil || IsBefore(&failures[place], first, order) {
			first = &failures[place]
		}
	}
	return first
}

// IsBefore says whether one failure is told before another one, of those whose reasons stand in this order.
func IsBefore(failure, other *Failure, order []string) bool {
	if failure.Reason != other.Reason {
		return slices.Index(order, failure.Reason) < slices.Index(order, other.Reason)
	}
	if failure.Name != other.Name {
		return failure.Name < other.Name
	}
	return failure.Device < other.Device
}

// IsApart says whether several devices have a folder of this one's id, and each shares its own with nobody. Someone may think that they
// share it with one another.
func (a *Answer) IsApart(folder *Folder) bool {
	for _, other := range a.Folders {
		if folder.Own != "" && folder.ID != join.ByChance && other.ID == folder.ID && other.Own != folder.Own && !folder.IsOut && !other.IsOut {
			return true
		}
	}
	return false
}

// IsPart says whether something of the folder wasn't audited, and nobody chose that: a name, a device, or all other devices. Of one that its
// device shares with nobody there is no other one, but where others have theirs of the same id. Records on their way weren't audited, either, nor was what may change the
// folder without a record (Unsure).
func (a *Answer) IsPart(folder *Folder) bool {
	return a.IsApart(folder) || a.lacksSome(folder) || folder.Live.isOnItsWay() || len(folder.Unsure()) > 0 || (!folder.Asked().IsAll() && !a.ByNames)
}

// IsWhole says whether all names of the folder were audited, on all devices that share it.
func (a *Answer) IsWhole(folder *Folder) bool { return !a.lacksSome(folder) && folder.Asked().IsAll() }

// lacksSome says whether a name or a device of the folder was left out, or a name was in motion.
func (a *Answer) lacksSome(folder *Folder) bool {
	if len(folder.LeftOut) > 0 || (len(folder.Members) < 2 && folder.Own == "") || folder.IsOut || folder.Live.isMoving() {
		return true
	}
	isOf := func(refusal Refusal) bool { return refusal.Folder == folder.ID }
	return slices.IndexFunc(a.LeftOut, isOf) >= 0 || slices.IndexFunc(a.Earlier, isOf) >= 0
}

// Asked says which names were read of the folder; parts of a folder that were made with others aren't joined.
func (f *Folder) Asked() choice.Names {
	if len(f.Members) == 0 {
		return choice.Names{}
	}
	return f.Members[0].Head.Names
}

// IsOfSlice says whether names of one slice alone were audited.
func (a *Answer) IsOfSlice() bool { return len(a.Folders) > 0 && a.Folders[0].Asked().IsOfSlice() }

// IsPartial says whether something wasn't audited.
func (a *Answer) IsPartial() bool {
	for _, folder := range a.Folders {
		if a.IsPart(folder) {
			return true
		}
	}
	return len(a.LeftOut)+len(a.Earlier) > 0 || a.lacksFolders()
}

// lacksFolders says whether the devices have folders that weren't audited, or may have some, and nobody chose the others by
// their ids.
func (a *Answer) lacksFolders() bool {
	for _, device := range a.Devices {
		if !a.IsByName && (device.IsSilent || len(device.Unasked) > 0) {
			return true
		}
	}
	return false
}

// First gives the failure that one document of all would have told, with its folder; nothing where all is settled.
func (a *Answer) First() (*Folder, *Failure) {
	var in *Folder
	var first *Failure
	for _, folder := range a.Folders {
		next := folder.FirstFailure()
		if next == nil {
			continue
		}
		if first == nil || Place(next.Reason) < Place(first.Reason) {
			in, first = folder, next
		}
	}
	return in, first
}
